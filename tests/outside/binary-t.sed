# Changes to memcached's t/binary.t, which Parts.pm explains: its comments become names of parts, its blocks sections.
s/^ *\(# \)\{0,1\}diag "\([^$"]*\)"\{0,1\};\{0,1\}$/part "\2";/
s/^# Bug 71$/part "Bug 71";/
s/^{$/section {/
s/^}$/};/
s/^my \$mc = /our $mc = /
s/^sub \(flush\|stats\) {/sub asked_\1 {/
s/return .* if(\$remaining == 0);/$self->refused($status) if !$remaining; &/
s/\(sysread(my .*)\);$/\1 or $self->closed;/
s/^ *my \$hdr = "";/& $self->awaits;/
