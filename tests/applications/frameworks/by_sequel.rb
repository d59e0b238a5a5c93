# Sequel: datasets over each table, with its defaults.
require 'sequel'

port, user, password, database = ARGV

def step(name)
  shown = yield
  puts "#{name}: #{shown.is_a?(Array) ? shown.map { |it| it.nil? ? 'NULL' : it.to_s }.join('|') : 'ok'}"
rescue StandardError => error
  inner = error
  inner = inner.cause while inner.cause
  number = inner.respond_to?(:error_number) ? inner.error_number : nil
  puts "#{name}: ERROR #{number || "#{error.class} #{error.message[0, 200]}"}"
ensure
  $stdout.flush
end

base = nil
notes = -> { base[:note] }
read = ->(key) { notes.call.first(id: key).values_at(:title, :body, :stars) }
roll_back = lambda do
  base.transaction do
    notes.call.where(id: 1).update(stars: 100)
    raise Sequel::Rollback
  end
  [notes.call.first(id: 1)[:stars]]
end

step('connect') do
  base = Sequel.connect(adapter: 'mysql2', host: '127.0.0.1', port: port.to_i, user: user, password: password, database: database)
end
base ||= Sequel.connect(adapter: 'mysql2', host: '127.0.0.1', port: port.to_i, user: user, password: password, database: database, test: false)
step('read') { read.call(1) }
step('create') { notes.call.insert(id: 50, title: 'Jam', body: "it's \\ sweet", stars: 3) }
step('created') { read.call(50) }
step('change') { notes.call.where(id: 2).update(stars: 9) }
step('delete') { notes.call.where(id: 3).delete }
step('page') { base[:tag].order(:name).limit(2, 1).map(:name) }
step('count') { [base[:tag].count] }
step('all') { [notes.call.where { stars >= 1 }.count] }
step('roll back') { roll_back.call }
