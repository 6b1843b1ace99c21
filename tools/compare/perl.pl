#!/usr/bin/perl
# Compares the ranges that colfind prints with the matches that Perl's Unicode::Collate finds, over the same table.
#
#   perl perl.pl COLFIND TABLE
#
# COLFIND is the built program, TABLE a file of the form of allkeys.txt. Each word of words.txt is looked for in text.txt
# at each strength and both weightings: in the text in NFD and in NFC. Perl searches the text in NFD and normalizes
# nothing itself, so its places are those of the text. Its `index` tells one match; the next one is looked for behind the
# letter at which that one begins, marks included, so that matches that overlap are found too.
use strict;
use warnings;
use Encode qw(decode encode);
use File::Basename qw(dirname);
use File::Copy qw(copy);
use File::Path qw(make_path);
use File::Temp qw(tempdir);
use Unicode::Collate;
use Unicode::Normalize qw(NFC NFD);

my ($colfind, $table) = @ARGV;
die "usage: perl perl.pl COLFIND TABLE\n" if !defined $table;

# Unicode::Collate looks for its table below a folder Unicode/Collate of @INC.
my $folder = tempdir(CLEANUP => 1);
make_path("$folder/Unicode/Collate");
copy($table, "$folder/Unicode/Collate/table.txt") or die "$table: $!\n";
unshift @INC, $folder;

sub text_of_file {
    my ($name) = @_;
    open my $file, '<:raw', dirname(__FILE__) . "/$name" or die "$name: $!\n";
    local $/;
    return decode('UTF-8', <$file>);
}

sub byte_length { return length encode('UTF-8', $_[0]) }

# The byte offset of each code point of a text in NFD, and of its end.
sub decomposed_offsets {
    my ($text) = @_;
    my @offsets = (0);
    push @offsets, $offsets[-1] + byte_length($_) for split //, $text;
    return \@offsets;
}

# For each code point of a text in NFD that begins the decomposition of a code point of the text in NFC, the byte
# offset of that one.
sub composed_offsets {
    my ($text, $decomposed) = @_;
    my ($offset, @offsets) = (0);
    for my $code_point (split //, $text) {
        push @offsets, $offset, (undef) x (length(NFD($code_point)) - 1);
        $offset += byte_length($code_point);
    }
    die "a mark changes its place from NFC to NFD\n" if @offsets != length $decomposed;
    return [@offsets, $offset];
}

sub matches_of_perl {
    my ($collator, $text, $word) = @_;
    my ($from, @matches) = (0);
    while ($from <= length $text) {
        my ($place, $length) = $collator->index($text, $word, $from);
        last if !defined $place || $place < 0;
        push @matches, [$place, $place + $length];
        $from = $place + 1;
        $from++ while $from < length $text && substr($text, $from, 1) =~ /\p{M}/;
    }
    return @matches;
}

sub lines_of_colfind {
    my ($text, @words) = @_;
    open my $out, '>:raw', "$folder/text" or die;
    print {$out} encode('UTF-8', $text);
    close $out or die;
    open my $lines, '-|', 'sh', '-c', 'text=$1; shift; exec "$@" < "$text"', 'sh', "$folder/text", $colfind, @words or die;
    local $/;
    return <$lines> // '';
}

my $composed = NFC(text_of_file('text.txt'));
my $decomposed = NFD($composed);
my @spellings = (
    ['NFC', $composed, composed_offsets($composed, $decomposed)],
    ['NFD', $decomposed, decomposed_offsets($decomposed)],
);
my ($searches, $matches, $different) = (0, 0, 0);
for my $strength (1 .. 3) {
    for my $variable ('non-ignorable', 'shifted') {
        my $collator = Unicode::Collate->new(table => 'table.txt', level => $strength, variable => $variable, normalization => undef);
        for my $word (split /\n/, text_of_file('words.txt')) {
            my @found = matches_of_perl($collator, $decomposed, NFD($word));
            $matches += @found;
            for my $spelling (@spellings) {
                my ($form, $text, $offsets) = @$spelling;
                my $wanted = join '', map { join(':', map { $offsets->[$_] // '?' } @$_) . "\n" } @found;
                my @words = ('--table', $table, '--strength', $strength, '--variable', $variable, '--', encode('UTF-8', $word));
                my $printed = lines_of_colfind($text, @words);
                $searches++;
                next if $printed eq $wanted;
                $different++;
                print encode('UTF-8', "$word in $form, strength $strength, $variable\nPerl:\n$wanted" . "colfind:\n$printed");
            }
        }
    }
}
printf "%d bytes in NFC, %d in NFD: %d matches by Perl; %d searches by colfind, %d different\n",
    byte_length($composed), byte_length($decomposed), $matches, $searches, $different;
exit($different ? 1 : 0);
