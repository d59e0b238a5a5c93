-- Runs the list `prepared` on standard input by lua-dbi, and prints the outcome of each line, with an empty line after it.
-- Usage: by_lua_dbi.lua PORT USER PASSWORD DATABASE
local DBI = require('DBI')

local function connected()
    local connection = assert(DBI.Connect('MySQL', arg[4], arg[2], arg[3], '127.0.0.1', tonumber(arg[1])))
    connection:autocommit(true)
    return connection
end

local function escaped(byte)
    if byte < ' ' or byte > '~' or byte == "'" or byte == '\\' then return string.format('\\x%02x', byte:byte()) end
end

local function value(it)
    if it == nil then return 'NULL' end
    if type(it) == 'string' then return (it:gsub('.', escaped)) end
    return math.type(it) == 'float' and string.format('%.0f', it) or tostring(it)
end

local function unescaped(text)
    text = text:gsub('\\u(%x%x%x%x)', function(digits) return string.char(tonumber(digits, 16)) end)
    return (text:gsub('\\(.)', function(it) return it == 'n' and '\n' or it end))
end

-- The values of JSON, and how many they are.
local function values(list)
    local found, count, at = {}, 0, 2
    while list:sub(at, at) ~= ']' do
        count = count + 1
        local text, next_at = list:match('^"(.-[^\\])"[, ]*()', at)
        if not text then
            text, next_at = list:match('^"()"[, ]*()', at)
            text = text and ''
        end
        if text then
            found[count] = unescaped(text)
        else
            text, next_at = list:match('^([^,%]]+)[, ]*()', at)
            if text ~= 'null' then found[count] = math.tointeger(tonumber(text)) or tonumber(text) end
        end
        at = next_at
    end
    return found, count
end

-- lua-dbi has a message, and no number.
local function refusal(message)
    return { 'ERROR ' .. tostring(message):gsub('^.*: ', '') }
end

-- It ends the process if a statement without rows is asked for its columns, so the text tells.
local function executed(statement, list, text)
    local given, count = values(list)
    local is_done, message = statement:execute(table.unpack(given, 1, count))
    if not is_done then return refusal(message) end
    if not text:match('^SELECT') then return { 'ok ' .. statement:affected() } end
    local lines = {}
    for row in statement:rows(false) do
        local cells = {}
        for at = 1, #statement:columns() do cells[at] = value(row[at]) end
        lines[#lines + 1] = table.concat(cells, '|')
    end
    lines[#lines + 1] = 'rows ' .. #lines
    return lines
end

local function bound(connection, list, text)
    local statement, message = connection:prepare(text)
    if not statement then return refusal(message) end
    local lines = executed(statement, list, text)
    statement:close()
    return lines
end

local kept, kept_text
local function outcome(connection, line)
    local list, text = line:match('^@%a+ (%[.-%]) (.*)')
    if list then return bound(connection, list, text) end
    if line:match('^@keep ') then
        local message
        kept_text = line:sub(7)
        kept, message = connection:prepare(kept_text)
        return kept and { 'ok 0' } or refusal(message)
    end
    if line:match('^@kept ') then return executed(kept, line:sub(7), kept_text) end
    if line == '@begin' then return { connection:autocommit(false) and 'ok 0' or 'in silence false' } end
    if line == '@commit' or line == '@rollback' then
        local is_done = line == '@commit' and connection:commit() or line == '@rollback' and connection:rollback()
        connection:autocommit(true)
        return { is_done and 'ok 0' or 'in silence false' }
    end
    return { 'ok 0' }
end

io.stdout:setvbuf('line')
local client, other = connected(), nil
for line in io.lines() do
    local lines
    if line:sub(1, 7) == '@other ' then
        other = other or connected()
        lines = bound(other, '[]', line:sub(8))
    else
        lines = outcome(client, line)
    end
    print(table.concat(lines, '\n') .. '\n')
end
