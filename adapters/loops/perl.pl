# Evaluates lines for prompted.py: one in double quotes is a statement, with \n for its line ends, another one the halves of a marker.
package TmhostLines;
use Data::Dumper ();
$Data::Dumper::Terse = $Data::Dumper::Indent = $Data::Dumper::Sortkeys = 1;
$Data::Dumper::Useqq = 1;
open(my $commands, '<&', \*STDIN);
open(STDIN, '<', '/dev/null');
open(my $own, '>&', \*STDOUT);
select((select($own), $| = 1)[0]);
$| = 1;
$SIG{INT} = sub { die "interrupted\n" if $TmhostLines::works };

sub shown { my ($value) = @_; ref $value ? Data::Dumper::Dumper($value) =~ s/\n\z//r : defined $value ? $value : 'undef' }

sub answer {
    my ($tmhost_text) = @_;
    local ($works, $@) = (1, '');
    $. = 0;
    my @values = eval "package main; no strict; no warnings;\n#line 1 \"input\"\n$tmhost_text";
    my $error = $@;
    $works = 0;
    print $own "$ENV{TMHOST_ERROR}$error" if $error ne '';
    print $own join(' ', map { shown($_) } @values), "\n" if $error eq '' && @values && $tmhost_text !~ /;\s*\z/;
}

while (defined(my $line = <$commands>)) {
    chomp $line;
    if ($line =~ /^"(.*)"$/s) { answer($1 =~ s/\\(.)/$1 eq 'n' ? "\n" : $1/ger) }
    else { print $own $line =~ s/ //r, "\n" }
}
