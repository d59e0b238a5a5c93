# Runs the lines on standard input by Ruby's mysql2, and prints the outcome of each, with an empty line after it.
# Usage: by_ruby.rb PORT USER PASSWORD DATABASE [bytes]   (bytes: the characters of bound texts are bytes, as in the list `prepared`)
require 'bigdecimal'
require 'json'
require 'mysql2'

TEXTS = { '@pause' => 'ROLLBACK', '@off' => 'SET autocommit = 0', '@on' => 'SET autocommit = 1', '@begin' => 'BEGIN', '@commit' => 'COMMIT', '@rollback' => 'ROLLBACK' }

def value(it)
  return 'NULL' if it.nil?
  return it.to_i.to_s if it.is_a?(BigDecimal)
  return it.to_s unless it.is_a?(String)
  "'" + it.bytes.map { |byte| byte.between?(0x20, 0x7e) && !"'\\".include?(byte.chr) ? byte.chr : format('\\x%02x', byte) }.join + "'"
end

def shown(client, result)
  return ["ok #{client.affected_rows}"] if result.nil?
  rows = result.to_a(as: :array).map { |row| row.map { |it| value(it) }.join('|') }
  rows + ["rows #{rows.size}"]
end

def executed(client, statement, values)
  values = JSON.parse(values).map { |it| it.is_a?(String) && $has_bytes ? it.codepoints.pack('C*') : it }
  result = statement.execute(*values, as: :array)
  result.nil? ? ["ok #{statement.affected_rows}"] : shown(client, result)
end

def run(client, line)
  case line
  when '@ping' then client.ping ? ['ok 0'] : ['ERROR ping']
  when /\A@use (.*)/ then client.select_db($1) && ['ok 0']
  when /\A@bind (\[.*?\]) (.*)/ then executed(client, client.prepare($2), $1)
  when /\A@keep (.*)/ then ($kept = client.prepare($1)) && ['ok 0']
  when /\A@kept (.*)/ then executed(client, $kept, $1)
  else shown(client, client.query(TEXTS.fetch(line, line), as: :array))
  end
end

def refusal(error) = ["ERROR #{error.error_number} (#{error.sql_state}): #{error.message}"]

def outcome(client, line)
  run(client, line)
rescue Mysql2::Error => error
  refusal(error)
end

port, user, password, database, bytes = ARGV
$has_bytes = bytes
$stdout.sync = true
connected = -> { Mysql2::Client.new(host: '127.0.0.1', port: port.to_i, username: user, password: password, database: database) }
begin
  client = connected.call
rescue Mysql2::Error => error
  puts refusal(error)
  exit 1
end
other = nil
STDIN.set_encoding('UTF-8')
while (line = STDIN.gets&.chomp)
  if line.start_with?('@other ')
    other ||= connected.call
    lines = outcome(other, line.delete_prefix('@other '))
    outcome(other, 'COMMIT')
  else
    lines = outcome(client, line)
  end
  puts lines, ''
end
