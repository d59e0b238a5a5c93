# DBIx::Class: a result class over each table, with its defaults.
use strict;
use warnings;

package Notes::Schema::Note;
use base 'DBIx::Class::Core';
__PACKAGE__->table('note');
__PACKAGE__->add_columns(id => { data_type => 'bigint' }, title => { data_type => 'varbinary' },
    body => { data_type => 'varbinary', is_nullable => 1 }, stars => { data_type => 'bigint' });
__PACKAGE__->set_primary_key('id');

package Notes::Schema::Tag;
use base 'DBIx::Class::Core';
__PACKAGE__->table('tag');
__PACKAGE__->add_columns(id => { data_type => 'bigint' }, name => { data_type => 'varbinary' }, uses => { data_type => 'bigint' });
__PACKAGE__->set_primary_key('id');

package Notes::Schema;
use base 'DBIx::Class::Schema';
__PACKAGE__->register_class(Note => 'Notes::Schema::Note');
__PACKAGE__->register_class(Tag => 'Notes::Schema::Tag');

package main;
$| = 1;
my ($port, $user, $password, $database) = @ARGV;
my $schema = Notes::Schema->connect("dbi:mysql:database=$database;host=127.0.0.1;port=$port", $user, $password, { PrintError => 0 });
my ($notes, $tags) = ($schema->resultset('Note'), $schema->resultset('Tag'));

sub step {
    my ($name, $action) = @_;
    my $shown = eval { $action->() };
    if (my $error = $@) {
        my $number = eval { $schema->storage->_dbh && $schema->storage->_dbh->err };
        $error =~ s/\n.*//s;
        print "$name: ERROR ", $number || substr($error, 0, 200), "\n";
        return;
    }
    print "$name: ", ref $shown eq 'ARRAY' ? join('|', map { $_ // 'NULL' } @$shown) : 'ok', "\n";
}

sub note_of { my $note = $notes->find($_[0]) or die 'no such note'; [$note->title, $note->body, $note->stars] }

step('connect', sub { $schema->storage->ensure_connected; 1 });
step('read', sub { note_of(1) });
step('create', sub { $notes->create({ id => 50, title => 'Jam', body => "it's \\ sweet", stars => 3 }); 1 });
step('created', sub { note_of(50) });
step('change', sub { $notes->find(2)->update({ stars => 9 }); 1 });
step('delete', sub { $notes->find(3)->delete; 1 });
step('page', sub { [map { $_->name } $tags->search({}, { order_by => 'name', rows => 2, offset => 1 })] });
step('count', sub { [$tags->count] });
step('all', sub { [$notes->search({ stars => { '>=' => 1 } })->count] });
step('roll back', sub {
    eval { $schema->txn_do(sub { $notes->find(1)->update({ stars => 100 }); die "enough\n" }) };
    die $@ if $@ !~ /enough/;
    [note_of(1)->[2]];
});
