#!/usr/bin/env perl
# bench/marpa.pl FILE TOKENS: how long Marpa::R2 takes for tokens and the terminals that may follow them. FILE has a rule on each line,
# a head, `=` and its elements: `[text]` is a terminal, `$kind` stands for the words of a kind, and the first head is the start.
# TOKENS is a text of these, with spaces between, as `$name $verb [something]`. What is told is microseconds of processor time, each the
# median of 20: for all tokens one after the other, and for the last one and what may follow it.
use strict;
use warnings;
use Marpa::R2;
use Time::HiRes qw(clock_gettime CLOCK_PROCESS_CPUTIME_ID);

my ($file, $text) = @ARGV;
my @tokens = map { terminal($_) } split ' ', $text;

# Marpa keeps names that end with a bracket for itself.
sub terminal { my ($name) = @_; $name =~ s/^\[(.*)\]$/'$1/; return $name }

sub microseconds { return 1e6 * clock_gettime(CLOCK_PROCESS_CPUTIME_ID) }

sub median { my @sorted = sort { $a <=> $b } @_; return ($sorted[$#sorted / 2] + $sorted[@sorted / 2]) / 2 }

open my $lines, '<', $file or die "marpa.pl: $file: $!\n";
my (@rules, %seen);
while (<$lines>) {
    my ($head, $sign, @elements) = map { terminal($_) } split;
    # Without features some rules are the same, and Marpa takes none twice.
    push @rules, { lhs => $head, rhs => \@elements } if defined $sign && !$seen{"@{[$head, @elements]}"}++;
}
my %heads = map { $_->{lhs} => 1 } @rules;
my %terminals = map { $_ => 1 } grep { !$heads{$_} } map { @{ $_->{rhs} } } @rules;
my $grammar = Marpa::R2::Grammar->new({ start => $rules[0]{lhs}, rules => \@rules, terminals => [keys %terminals] });
$grammar->precompute;

my (@all, @last, @expected);
for (1 .. 20) {
    my $recognizer = Marpa::R2::Recognizer->new({ grammar => $grammar });
    my $all = 0;
    for my $at (0 .. $#tokens) {
        my $begun = microseconds();
        defined $recognizer->read($tokens[$at], $tokens[$at]) or die "marpa.pl: $tokens[$at], token $at, may not stand there\n";
        $all += microseconds() - $begun;
        next if $at < $#tokens;
        @expected = @{ $recognizer->terminals_expected };
        push @last, microseconds() - $begun;
    }
    push @all, $all;
}
printf "%d tokens by Marpa %s: %d rules, %d terminals may follow\n", scalar @tokens, Marpa::R2->VERSION, scalar @rules, scalar @expected;
printf "%.0f microseconds for all tokens, %.0f for the last one and what may follow\n", median(@all), median(@last);
