#!/usr/bin/env perl
# Reserves leaves, signs, verifies, reads and writes the orders and the keys in files of vectors/, and compares the
# numbers, by the rules of docs/INTERFACE.md, with nothing of the library and of the other tests: it shows that the page
# is enough to build a desk and a cabinet from. It needs Perl's core modules alone.
#
#     perl tests/vectors/orders.pl vectors/*.json
#
# Prints a line for each call of Root, Reserve, Sign, Check, Read sheet, Write sheet, Read key, Write key and Compare.
# Fails where one answers other than the file says, and where one of these has no call, in either edition but for
# Compare, which knows none, and Read key, to which the frame says it. Vectors of other operations are passed over.
use strict;
use warnings;
use Digest::SHA qw(sha256);
use JSON::PP qw(decode_json);
use Math::BigInt;

# The tweaked hash of data, for the address with a type and three fields. Perl's N is a number in 4 bytes.
sub tweaked_hash {
    my ($seed, $type, $first, $second, $third, $data) = @_;
    my $address = "\0" x 9 . pack('CNNN', $type, $first, $second, $third);
    return substr(sha256($seed . "\0" x 48 . $address . $data), 0, 16);
}

sub hexed {
    my ($bytes) = @_;
    return uc unpack('H*', $bytes);
}

# Bytes written into a slice that was filled with A5 before.
sub written {
    my ($bytes, $size) = @_;
    return hexed($bytes . "\xA5" x ($size - length $bytes));
}

sub chain_value {
    my ($seed, $secret, $leaf, $chain, $height) = @_;
    my $value = tweaked_hash($seed, 5, $leaf, $chain, 0, $secret);
    $value = tweaked_hash($seed, 0, $leaf, $chain, $_, $value) for 0 .. $height - 1;
    return $value;
}

my %nodes;
sub node {
    my ($l, $w, $seed, $secret, $height, $index) = @_;
    return $nodes{"$l $w $seed $secret $height $index"} //= $height == 0
        ? tweaked_hash($seed, 1, $index, 0, 0,
            join('', map { chain_value($seed, $secret, $index, $_, $w - 1) } 0 .. $l - 1))
        : tweaked_hash($seed, 2, 0, $height, $index,
            join('', map { node($l, $w, $seed, $secret, $height - 1, 2 * $index + $_) } 0, 1));
}

# The counts D(i, t) up to i = l and t = s.
my %tables;
sub counts {
    my ($l, $w, $s) = @_;
    return $tables{"$l $w $s"} //= do {
        my @d = ([map { Math::BigInt->new($_ == 0 ? 1 : 0) } 0 .. $s]);
        for my $i (1 .. $l) {
            for my $t (0 .. $s) {
                $d[$i][$t] = Math::BigInt->new(0);
                $d[$i][$t]->badd($d[$i - 1][$t - $_]) for 0 .. ($t < $w - 1 ? $t : $w - 1);
            }
        }
        \@d;
    };
}

# The count, below 256 where no order is signed or accepted.
sub count {
    my ($l, $w, $s) = @_;
    return counts($l, $w, $s)->[$l][$s];
}

# The row of an order, whose message number is the first b bits of its digest. In edition 2 the leaf's four bytes are
# digested behind the root's.
sub row_of_order {
    my ($l, $w, $s, $edition, $r, $seed, $root, $leaf, $text) = @_;
    my $bits = 0;
    $bits++ while $bits < 128 && Math::BigInt->new(2)->bpow($bits + 1) <= count($l, $w, $s);
    my $digest = sha256(join '', $r, $seed, $root, $edition == 2 ? pack('N', $leaf) : (), $text);
    my $number = Math::BigInt->from_bin(substr(unpack('B*', $digest), 0, $bits));
    my ($left, @row) = ($s);
    for my $after (reverse 0 .. $l - 1) {
        my $counts = counts($l, $w, $s)->[$after];
        my $v = 0;
        $number -= $counts->[$left - $v], $v++ while $number >= $counts->[$left - $v];
        push @row, $v;
        $left -= $v;
    }
    return @row;
}

# The leaf that a key has reserved and not signed with, or undef: the one before its next leaf, where that is a leaf of
# the tree and the mark says so.
sub reserved_leaf {
    my ($h, $next, $mark) = @_;
    return $mark == 1 && $next > 0 && $next - 1 < 2**$h ? $next - 1 : undef;
}

# The desk. Each operation answers with what the file has in `out`.
sub reserve {
    my ($h, $next, $mark) = @_;
    my $refused = defined reserved_leaf($h, $next, $mark) ? 21 : $next > 2**$h - 1 ? 12 : 0;
    return (outcome => $refused, next_leaf => $refused ? $next : $next + 1, mark => $refused ? $mark : 1);
}

sub sign {
    my ($l, $w, $s, $h, $edition, $seed, $secret, $next, $mark, $r, $text) = @_;
    my $refused = sub { (outcome => $_[0], mark => $mark, signature => 'untouched') };
    return $refused->(16) if length $text < 1 || length $text > 200;
    my $leaf = reserved_leaf($h, $next, $mark) // return $refused->(20);
    return $refused->(19) if count($l, $w, $s) < 256;
    my @tree = ($l, $w, $seed, $secret);
    my @row = row_of_order($l, $w, $s, $edition, $r, $seed, node(@tree, $h, 0), $leaf, $text);
    my @values = map { chain_value($seed, $secret, $leaf, $_, $row[$_]) } 0 .. $l - 1;
    my @siblings = map { node(@tree, $_, ($leaf >> $_) ^ 1) } 0 .. $h - 1;
    my $signature = join('', pack('N', $leaf), $r, @values, @siblings);
    return (outcome => 0, mark => 0, signature => hexed($signature));
}

# A cabinet's marks as 32 digits: digit i, from 0, is 1 where the leaf i below the highest was accepted.
sub digits {
    my ($marks) = @_;
    return scalar reverse sprintf('%032b', $marks);
}

# A cabinet's highest leaf and marks with one leaf more accepted.
sub with_leaf {
    my ($highest, $marks, $leaf) = @_;
    my $digits = digits($marks);
    $highest = $leaf if !$marks;
    if ($leaf > $highest) {
        # the marks move up, and those behind the last place fall away
        $digits = substr('0' x ($leaf - $highest) . $digits, 0, 32);
        $highest = $leaf;
    }
    substr($digits, $highest - $leaf, 1, '1');
    return (highest_leaf => $highest, marks => oct('0b' . reverse $digits));
}

# The cabinet.
sub verify {
    my ($l, $w, $s, $h, $edition, $seed, $root, $highest, $marks, $text, $signature) = @_;
    my $steps = 0;
    my $refused = sub { (outcome => $_[0], highest_leaf => $highest, marks => $marks, steps => $steps) };
    return $refused->(16) if length $text < 1 || length $text > 200;
    return $refused->(13) if length $signature != 20 + 16 * $l + 16 * $h;
    my ($leaf, $r, @values) = unpack('N a16 (a16)*', $signature);
    my @siblings = splice @values, $l;
    return $refused->(11) if $leaf >= 2**$h;
    my $below = $highest - $leaf;
    return $refused->(14) if $marks && ($below >= 32 || $below >= 0 && substr(digits($marks), $below, 1));
    return $refused->(19) if count($l, $w, $s) < 256;
    my @row = row_of_order($l, $w, $s, $edition, $r, $seed, $root, $leaf, $text);
    for my $c (0 .. $l - 1) {
        for my $k ($row[$c] .. $w - 2) {
            $values[$c] = tweaked_hash($seed, 0, $leaf, $c, $k, $values[$c]);
            $steps++;
        }
    }
    my $node = tweaked_hash($seed, 1, $leaf, 0, 0, join('', @values));
    for my $k (0 .. $h - 1) {
        my $children = $leaf >> $k & 1 ? $siblings[$k] . $node : $node . $siblings[$k];
        $node = tweaked_hash($seed, 2, 0, $k + 1, $leaf >> ($k + 1), $children);
    }
    return $refused->(15) if $node ne $root;
    return (outcome => 0, with_leaf($highest, $marks, $leaf), steps => $steps);
}

# What each line of a sheet begins with.
sub heads {
    my ($l, $w, $s, $h, $edition) = @_;
    my $profile = sprintf('01%02X%02X%02X%04X', $l, $w, $h, $s) . ($edition == 2 ? '02' : '');
    my @values = map { sprintf '04%02X', $_ } 0 .. $l - 1;
    my @siblings = map { sprintf '05%02X', $_ } 0 .. $h - 1;
    return ('474F31', $profile, '02', '03', @values, @siblings, '06');
}

# The signature and the text of a sheet, or the number of the first wrong line.
sub read_sheet {
    my ($l, $w, $s, $h, $edition, $sheet, $signature_len, $text_len) = @_;
    my @refused = (outcome => 17, message_written => 0, signature => 'untouched', message => 'untouched');
    my @sizes = (0, 0, 4, (16) x (1 + $l + $h), '1,200');
    my @carried;
    for my $head (heads($l, $w, $s, $h, $edition)) {
        my $size = $sizes[@carried];
        $sheet =~ s/\A$head((?:[0-9A-F]{2}){$size})\n// or return (@refused, line => @carried + 1);
        push @carried, pack('H*', $1);
    }
    return (@refused, line => @carried + 1) if length $sheet;
    my $text = pop @carried;
    return (outcome => 0, line => 0, message_written => length $text,
        signature => written(join('', @carried), $signature_len), message => written($text, $text_len));
}

# The sheet of a signature and a text.
sub write_sheet {
    my ($l, $w, $s, $h, $edition, $signature, $text, $sheet_len) = @_;
    my $refused = sub { (outcome => $_[0], sheet_written => 0, sheet => 'untouched') };
    return $refused->(16) if length $text < 1 || length $text > 200;
    return $refused->(13) if length $signature != 20 + 16 * $l + 16 * $h;
    my @carried = ('', '', unpack('a4 (a16)*', $signature), $text);
    my $sheet = join '', map { $_ . hexed(shift @carried) . "\n" } heads($l, $w, $s, $h, $edition);
    return (outcome => 0, sheet_written => length $sheet, sheet => written($sheet, $sheet_len));
}

# The frame of a key. Perl's n is a number in 2 bytes.
sub write_key {
    my ($l, $w, $s, $h, $edition, $seed, $secret, $next, $mark, $frame_len) = @_;
    my $marked = defined reserved_leaf($h, $next, $mark) ? 1 : 0;
    my $bytes = pack('CCCCn a16 a16 N C', 7, $l, $w, $h, $s, $seed, $secret, $next, $marked);
    my $frame = hexed($bytes) . ($edition == 2 ? '02' : '') . "\n";
    return (outcome => 0, frame_written => length $frame, frame => written($frame, $frame_len));
}

# The key in a frame. The line is matched as a whole, and its numbers are then held to the profile's limits.
sub read_key {
    my ($frame) = @_;
    my %none = (outcome => 17, line => 1, next_leaf => 0, mark => 0, profile => '0 0 0 0 0');
    @none{'public_seed', 'secret_seed'} = ('00' x 16) x 2;
    my $two = '[0-9A-F]{2}';
    my ($l, $w, $h, $s, $seed, $secret, $next, $mark, $last) =
        $frame =~ /\A07($two)($two)($two)((?:$two){2})((?:$two){16})((?:$two){16})((?:$two){4})0([01])(02)?\n\z/
        or return %none;
    ($l, $w, $h, $s, $next) = map { hex } $l, $w, $h, $s, $next;
    return %none if $l < 1 || $l > 40 || $w < 2 || $w > 16 || $s > $l * ($w - 1) || $h > 10;
    $mark = 0 unless defined reserved_leaf($h, $next, $mark);
    my $profile = join ' ', $l, $w, $s, $h, defined $last ? 2 : 1;
    return (outcome => 0, line => 0, profile => $profile, public_seed => $seed, secret_seed => $secret,
        next_leaf => $next, mark => $mark);
}

# Numbers in hex, eight digits a word, highest word first.
sub compare {
    my ($first, $second) = map { [unpack('(A8)5', $_)] } @_;
    for my $pair (0 .. 4) {
        my $order = hex($first->[$pair]) <=> hex($second->[$pair]);
        return (outcome => 0, order => $order + 1, looked => $pair + 1) if $order;
    }
    return (outcome => 0, order => 1, looked => 5);
}

sub answer {
    my ($operation, $in) = @_;
    return compare(@$in{'first', 'second'}) if $operation eq 'compare';
    return read_key(pack('H*', $in->{frame})) if $operation eq 'read_key';
    my @profile = @$in{'l', 'w', 's', 'h', 'edition'};
    my @counter = @$in{'next_leaf', 'mark'};
    my ($seed, $secret, $root, $r, $text, $signature, $sheet) =
        map { pack('H*', $in->{$_} // '') } qw(public_seed secret_seed root r message signature sheet);
    return reserve($in->{h}, @counter) if $operation eq 'reserve';
    return sign(@profile, $seed, $secret, @counter, $r, $text) if $operation eq 'sign';
    return write_key(@profile, $seed, $secret, @counter, $in->{frame_len}) if $operation eq 'write_key';
    return verify(@profile, $seed, $root, @$in{'highest_leaf', 'marks'}, $text, $signature) if $operation eq 'verify';
    return read_sheet(@profile, $sheet, @$in{'signature_len', 'message_len'}) if $operation eq 'read_sheet';
    return write_sheet(@profile, $signature, $text, $in->{sheet_len}) if $operation eq 'write_sheet';
    return (outcome => 0, root => hexed(node(@profile[0, 1], $seed, $secret, $profile[3], 0)));
}

my @operations = qw(root reserve sign verify read_sheet write_sheet write_key);
my %made = map { $_ => 0 } 'compare', 'read_key', map { ("$_ of edition 1", "$_ of edition 2") } @operations;
my $differing = 0;
for my $file (@ARGV) {
    open my $handle, '<', $file or die "$file: $!\n";
    my $vectors = decode_json(do { local $/; <$handle> })->{vectors};
    for my $vector (@$vectors) {
        my ($operation, $in, $out) = @$vector{'operation', 'in', 'out'};
        my $kind = $operation . (exists $in->{edition} ? " of edition $in->{edition}" : '');
        # profiles out of their limits, editions that are none and slices too short are the library's to refuse
        next if $out->{outcome} >= 1 && $out->{outcome} <= 6 || $out->{outcome} == 22 || !exists $made{$kind};
        $out->{profile} = "@{$out->{profile}}" if exists $out->{profile};
        my %found = answer($operation, $in);
        my @wrong = grep { $found{$_} ne $out->{$_} } sort keys %found;
        my $told = join ', ', map { "$_ $found{$_}" } grep { !/^(signature|message|sheet|frame)$/ } sort keys %found;
        my $profile = exists $in->{l} ? " at @$in{'l', 'w', 's', 'h', 'edition'}" : '';
        print "$operation$profile, $vector->{note}: $told\n";
        print "  DIFFERS: $_ $found{$_}, expected $out->{$_}\n" for @wrong;
        $made{$kind}++;
        $differing++ if @wrong;
    }
}
print join(', ', map { "$made{$_} $_" } sort keys %made), ": $differing differ\n";
exit($differing || grep({ $_ == 0 } values %made) ? 1 : 0);
