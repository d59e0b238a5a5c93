# ActiveRecord: a model over each table, with its defaults.
require 'active_record'

port, user, password, database = ARGV

class Note < ActiveRecord::Base
  self.table_name = 'note'
end

class Tag < ActiveRecord::Base
  self.table_name = 'tag'
end

def step(name)
  shown = yield
  puts "#{name}: #{shown.is_a?(Array) ? shown.map { |it| it.nil? ? 'NULL' : it.to_s }.join('|') : 'ok'}"
rescue StandardError => error
  inner = error
  inner = inner.cause while inner.cause
  number = inner.respond_to?(:error_number) ? inner.error_number : nil
  puts "#{name}: ERROR #{number || "#{error.class} #{error.message[0, 200]}"}"
ensure
  $stdout.flush
end

def read(key)
  note = Note.find(key)
  [note.title, note.body, note.stars]
end

def roll_back
  Note.transaction do
    Note.where(id: 1).update_all(stars: 100)
    raise ActiveRecord::Rollback
  end
  [Note.find(1).stars]
end

step('connect') do
  ActiveRecord::Base.establish_connection(adapter: 'mysql2', host: '127.0.0.1', port: port.to_i, username: user, password: password, database: database)
  ActiveRecord::Base.connection
end
step('read') { read(1) }
step('create') { Note.create!(id: 50, title: 'Jam', body: "it's \\ sweet", stars: 3) }
step('created') { read(50) }
step('change') { Note.find(2).update!(stars: 9) }
step('delete') { Note.find(3).destroy! }
step('page') { Tag.order(:name).limit(2).offset(1).map(&:name) }
step('count') { [Tag.count] }
step('all') { [Note.where('stars >= ?', 1).count] }
step('roll back') { roll_back }
