# Respells a file so that Yosys and document 01 read it alike: line ends 10, no `$` in front of a cell type.
# What it means by document 01 stays, cell types apart.
use strict;
use warnings;
undef $/;
my $file = <STDIN>;
$file =~ tr/\r/\n/;
$file =~ s/^([ \t]*cell[ \t]+)\$/$1\\/gm;
print $file;
