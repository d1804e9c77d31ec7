# Chooses sets of objects of a pool, a line for each: its title, and the numbers of the objects in their order. Each object comes with
# what its undefined symbols want, as far as sixteen go; pairs and larger sets come at random, half of them with what they want.
#
# The pool: the file pool/list has a number and a name for each object; pool/NUMBER.fcp is there where it was packed, and
# pool/NUMBER.symbols has the names that it gives and needs. The first OWN of the COUNT objects are of our own sources.
# perl choose_sets.pl COUNT OWN SEED
use strict;
use warnings;
my ($count, $own, $seed) = @ARGV;
my (%gives, @needs, @name, @good);
open(my $list, "<", "pool/list"); while (<$list>) { my ($i, $n) = split; $name[$i] = $n; }
for my $i (0 .. $count - 1) {
  next unless -e "pool/$i.fcp";
  push @good, $i;
  open(my $f, "<", "pool/$i.symbols");
  while (<$f>) { my ($what, $symbol) = split; if ($what eq "gives") { push @{$gives{$symbol}}, $i; } else { push @{$needs[$i]}, $symbol; } }
}
sub wanting {
  my @set = @_; my %has; my @queue = @set;
  for my $i (@set) { $has{$i} = 1; }
  while (@queue && @set < 16) {
    my $i = shift @queue;
    for my $symbol (@{$needs[$i] || []}) {
      my @from = @{$gives{$symbol} || []};
      next if !@from || grep { $has{$_} } @from;
      # a partner from the libraries, or one of our own of the same variant
      my ($variant) = $name[$i] =~ /_(\d+)$/;
      my @alike = defined $variant ? grep { $name[$_] =~ /_$variant$/ } @from : ();
      my $partner = @alike ? $alike[0] : $from[0];
      next if @set >= 16;
      push @set, $partner; push @queue, $partner; $has{$partner} = 1;
    }
  }
  return @set;
}
sub unlike { my %seen; return grep { !$seen{$_}++ } @_; }
for my $i (@good) { print "with:$name[$i] ", join(" ", wanting($i)), "\n"; }
srand($seed);
for my $n (1 .. 60) { my @two = unlike($good[rand @good], $good[rand @good]); print "pair:$n ", join(" ", @two), "\n"; }
for my $n (1 .. 80) {
  my @some = unlike(map { $good[rand @good] } 1 .. 2 + rand 6);
  @some = wanting(@some) if $n % 2;
  print "random:$n ", join(" ", @some), "\n";
}
my @ours = grep { $_ < $own } @good;
for my $n (1 .. 40) {
  my @some = unlike(map { $ours[rand @ours] } 1 .. 2 + rand 5);
  print "own:$n ", join(" ", wanting(@some)), "\n";
}
