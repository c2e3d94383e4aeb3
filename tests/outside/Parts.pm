# Goes with memcached's t/binary.t as binary-t.sed changes it. As it is, the test ends at its first surprise: its client takes
# an error reply without a text for success, and waits for good at a closed connection or for an answer that doesn't come. Here
# these are errors to it, a part that ends early is one failed test, and the next part has a new connection.
package Parts;
use strict;
use warnings;
use Exporter 'import';
use Test::More ();
our @EXPORT = qw(part section);

use constant LIMIT => 10;    # seconds from one answer to the next
$SIG{PIPE} = 'IGNORE';
$SIG{ALRM} = sub { die 'no answer' };

sub part {
    Test::More::note("part $_[0]");
}

sub section(&) {
    my $code = shift;
    alarm(LIMIT);
    my $done = eval { $code->(); 1 };
    my $why = "$@";
    alarm(0);
    return if $done;
    $why =~ s/ at \S+ line .*//s;
    Test::More::fail("ends early: $why");
    $main::mc->connect_anew;
}

# What the test's client gets beside its own.
package MC::Client;

use constant CMD_GET_KEYS => 0xb8;
use constant NOT_BUILT    => 0x83;

sub awaits {
    alarm(Parts::LIMIT);
}

sub refused {
    my ($self, $status) = @_;
    die MC::Error->new($status, 'no text') if $status;
}

sub closed {
    my $self = shift;
    $self->connect_anew;
    die MC::Error->new(-1, 'the connection was closed');
}

sub connect_anew {
    my $self = shift;
    my ($host, $port) = ($self->{socket}->peerhost, $self->{socket}->peerport);
    $self->{socket} = IO::Socket::INET->new(PeerAddr => "$host:$port") or die "can't connect";
}

# A command that isn't built is a failed test, and gives nothing.
sub built {
    my ($name, $ask) = @_;
    my @answer = eval { $ask->() };
    return @answer unless $@;
    die $@ unless ref $@ && $@->[0] == NOT_BUILT;
    Test::More::fail("$name isn't built");
    return;
}

sub stats {
    my ($self, $key) = @_;
    return built('stat', sub { $self->asked_stats($key) });
}

# Where there is no flush, each contact is erased, so that what comes next finds none.
sub flush {
    my $self = shift;
    return if built('flush', sub { $self->asked_flush });
    my ($listed) = $self->_do_command(CMD_GET_KEYS, '', '');
    $self->delete($_) for unpack('(N/a)*', $listed);
}

1;
