-- Runs the lines on standard input by LuaSQL, and prints the outcome of each, with an empty line after it.
-- Usage: by_lua.lua PORT USER PASSWORD DATABASE
local driver = require('luasql.mysql')
local port, user, password, database = arg[1], arg[2], arg[3], arg[4]

local function connected()
    return driver.mysql():connect(database, user, password, '127.0.0.1', tonumber(port))
end

local function escaped(byte)
    if byte < ' ' or byte > '~' or byte == "'" or byte == '\\' then return string.format('\\x%02x', byte:byte()) end
end

local function value(it)
    if it == nil then return 'NULL' end
    return (it:gsub('.', escaped))
end

-- LuaSQL has a message, and no number.
local function refusal(message)
    return { 'ERROR ' .. tostring(message):gsub('^LuaSQL: .*MySQL: ', '') }
end

local function executed(connection, text)
    local result, message = connection:execute(text)
    if result == nil then return refusal(message) end
    if type(result) == 'number' then return { 'ok ' .. math.floor(result) } end
    local lines, width = {}, #result:getcolnames()
    local row = result:fetch({}, 'n')
    while row do
        local cells = {}
        for at = 1, width do cells[at] = value(row[at]) end
        lines[#lines + 1] = table.concat(cells, '|')
        row = result:fetch(row, 'n')
    end
    result:close()
    lines[#lines + 1] = 'rows ' .. #lines
    return lines
end

local calls = {
    ['@off'] = function(connection) return connection:setautocommit(false) end,
    ['@on'] = function(connection) return connection:setautocommit(true) end,
    ['@commit'] = function(connection) return connection:commit() end,
    ['@rollback'] = function(connection) return connection:rollback() end,
}

local function outcome(connection, line)
    if line == '@begin' then line = 'BEGIN' end
    if not calls[line] then return executed(connection, line) end
    return { calls[line](connection) and 'ok 0' or 'in silence false' }
end

local client, message = connected()
if not client then
    print(refusal(message)[1])
    os.exit(1)
end
local other
for line in io.lines() do
    local lines
    if line:sub(1, 7) == '@other ' then
        other = other or connected()
        lines = outcome(other, line:sub(8))
        outcome(other, 'COMMIT')
    else
        lines = outcome(client, line)
    end
    print(table.concat(lines, '\n') .. '\n')
end
client:close()
if other then other:close() end
