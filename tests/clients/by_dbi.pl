# Runs the statements on standard input, one a line, by Perl's DBI and a driver, MariaDB or mysql, and prints the outcome of each, with an
# empty line after it.
# Usage: by_dbi.pl DRIVER PORT USER PASSWORD DATABASE
use strict;
use warnings;
use DBI qw(:sql_types);
use JSON::PP;

$| = 1;
my ($driver, $port, $user, $password, $database) = @ARGV;

# What the last call was refused for.
sub refused { return "ERROR $DBI::err ($DBI::state): $DBI::errstr" }

my $place = "host=127.0.0.1;port=$port" . ($database ne '' ? ";database=$database" : '');

# By its defaults, but that errors are printed only here.
sub connected { return DBI->connect("DBI:$driver:$place", $user, $password, { PrintError => 0 }) }

my $client = connected();
if (!$client) {
    print refused(), "\n";
    exit 1;
}

sub value {
    my ($it, $is_text) = @_;
    return 'NULL' if !defined $it;
    return $it if !$is_text;
    $it =~ s/([^\x20-\x7e]|['\\])/sprintf '\\x%02x', ord $1/ge;
    return "'$it'";
}

my %calls = (
    '@ping' => sub { $_[0]->ping },
    '@off' => sub { $_[0]->{AutoCommit} = 0; !$_[0]->err },
    '@on' => sub { $_[0]->{AutoCommit} = 1; !$_[0]->err },
    '@begin' => sub { $_[0]->begin_work },
    '@commit' => sub { $_[0]->commit },
    '@rollback' => sub { $_[0]->rollback },
);

sub run {
    my ($connection, $line) = @_;
    if ($calls{$line}) {
        my $is_done = $calls{$line}($connection);
        return $is_done && $connection->err ? 'in silence ' . refused() : $is_done ? 'ok 0' : refused();
    }
    my ($how, @values, %choices) = ('');
    if ($line =~ /^\@(bind|typed|prepare) (\[.*?\]) (.*)$/) {
        $how = $1;
        @values = @{ decode_json($2) };
        $line = $3;
        $choices{ lc($driver) . '_server_prepare' } = 1 if $how eq 'prepare';
    }
    my $statement = $connection->prepare($line, \%choices) or return refused();
    if ($how ne 'bind') {
        for my $at (0 .. $#values) {
            my $kind = defined $values[$at] && $values[$at] =~ /^-?\d+$/ ? SQL_BIGINT : SQL_VARCHAR;
            $statement->bind_param($at + 1, $values[$at], $kind);
        }
        @values = ();
    }
    my $count = $statement->execute(@values) or return refused();
    return 'ok ' . ($count + 0) if !$statement->{NUM_OF_FIELDS};
    my @is_text = map { $_ == SQL_VARBINARY || $_ == SQL_VARCHAR } @{ $statement->{TYPE} };
    my @lines;
    while (my $row = $statement->fetchrow_arrayref) {
        push @lines, join '|', map { value($row->[$_], $is_text[$_]) } 0 .. $#$row;
    }
    return refused() if $statement->err;
    return (@lines, 'rows ' . scalar @lines);
}

# DBD::MariaDB takes texts of characters, DBD::mysql such of bytes.
binmode STDIN, ':encoding(UTF-8)' if $driver eq 'MariaDB';
my $other;
while (my $line = <STDIN>) {
    chomp $line;
    my @lines;
    if ($line =~ s/^\@other //) {
        $other //= connected();
        @lines = run($other, $line);
        run($other, 'COMMIT');
    } else {
        @lines = run($client, $line);
    }
    print join("\n", @lines), "\n\n";
}
$_->disconnect for grep { defined } $client, $other;
