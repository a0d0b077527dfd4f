# A player over Net::DAAP::DMAP, which reads DMAP tags for Perl's DAAP clients and servers. It asks a share at 127.0.0.1 and
# the port that is given, and prints a line for each song (its id, title, artist, album, year and seconds) and for each playlist
# (its name and how many songs it has). Ends with an error if a response is not what it has to be.
use strict;
use warnings;
use HTTP::Tiny;
use Net::DAAP::DMAP qw(dmap_unpack dmap_seek);

binmode(STDOUT, ":utf8");
my $base = "http://127.0.0.1:$ARGV[0]";
my $http = HTTP::Tiny->new(timeout => 60);

sub fetch {
    my ($path) = @_;
    my $reply = $http->get($base . $path);
    die "$path: $reply->{status}\n" unless $reply->{success};
    return dmap_unpack($reply->{content});
}

# The members of each row of a listing, by their names.
sub rows {
    my ($reply, $listing) = @_;
    my $rows = dmap_seek($reply, "$listing/dmap.listing") or die "no listing in $listing\n";
    return map {
        my %row = map { $_->[0] => $_->[1] } @{$_->[1]};
        \%row;
    } @$rows;
}

my $session = dmap_seek(fetch("/login"), "dmap.loginresponse/dmap.sessionid");
my $asked = join(",", map("dmap.$_", qw(itemid itemname)), map("daap.$_", qw(songartist songalbum songyear songtime)));
my $songs = fetch("/databases/1/items?session-id=$session&meta=$asked");
for my $row (rows($songs, "daap.databasesongs")) {
    my $seconds = int($row->{"daap.songtime"} / 1000);
    print join("\t", $row->{"dmap.itemid"}, map({ $_ // "" } $row->{"dmap.itemname"}, $row->{"daap.songartist"}, $row->{"daap.songalbum"},
        $row->{"daap.songyear"}), $seconds), "\n";
}
my $lists = fetch("/databases/1/containers?session-id=$session");
for my $list (rows($lists, "daap.databaseplaylists")) {
    next if $list->{"dmap.itemid"} == 1;
    my $members = fetch("/databases/1/containers/$list->{'dmap.itemid'}/items?session-id=$session");
    my $count = () = rows($members, "daap.playlistsongs");
    print "list\t$list->{'dmap.itemname'}\t$count\n";
}
fetch("/databases?session-id=$session");
my $reply = $http->get("$base/logout?session-id=$session");
die "logout: $reply->{status}\n" unless $reply->{status} == 204;
