#!/usr/bin/perl
# Whether Perl's Unicode::Collate takes two texts for equal, over a table: for each line of standard input one of standard output.
#
#   perl perl_equal.pl TABLE
#
# TABLE is a file of the form of allkeys.txt. A line is a strength, a weighting and two texts, each its code points with commas. Texts are
# equal where their sort keys are; the line is then 1, else 0.
use strict;
use warnings;
use File::Copy qw(copy);
use File::Path qw(make_path);
use File::Temp qw(tempdir);
use Unicode::Collate;

my ($table) = @ARGV;
die "usage: perl perl_equal.pl TABLE\n" if !defined $table;

# Unicode::Collate looks for its table below a folder Unicode/Collate of @INC.
my $folder = tempdir(CLEANUP => 1);
make_path("$folder/Unicode/Collate");
copy($table, "$folder/Unicode/Collate/table.txt") or die "$table: $!\n";
unshift @INC, $folder;

sub text_of { return join '', map { chr } split /,/, $_[0] }

my %collators;
$| = 1;
while (my $line = <STDIN>) {
    chomp $line;
    my ($strength, $variable, $one, $other) = split / /, $line, 4;
    my $collator = $collators{"$strength $variable"} //= Unicode::Collate->new(table => 'table.txt', level => $strength, variable => $variable);
    print $collator->getSortKey(text_of($one)) eq $collator->getSortKey(text_of($other)) ? "1\n" : "0\n";
}
