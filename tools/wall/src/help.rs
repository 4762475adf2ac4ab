//! The help text.

pub const VERSION: &str = concat!("wall ", env!("CARGO_PKG_VERSION"), "\n");

pub const HELP: &str = "\
Draws substation networks for the wall, audits the drawings, and checks and compares sheets.

Usage:
  wall draw NETWORK -o FILE [OPTIONS]   draw the sheet, an SVG or PDF file
  wall audit NETWORK [OPTIONS]          print the figures of the drawing's audit, and how much of
                                        its sheet may be misread
  wall list NETWORK [OPTIONS]           print the drawing's pieces, one a line, as drawlist does
  wall compare OLD NEW [OPTIONS]        print what differs between two networks; with -o FILE,
                                        draw the new one with what differs marked and listed
  wall check SHEET NETWORK              read a finished sheet back and print where it doesn't
                                        show the network, and where it may be misread

NETWORK is a folder with files as planning tools and spreadsheets write them (commas, semicolons
or tabs; UTF-8, UTF-16 or Latin-1; decimal points or commas): buses.csv (columns name,
substation, kv, x, y) and branches.csv (columns name, from, to, in_service; number where the sheet
is to call branches by numbers of your own, not by their rows; from_switch, to_switch, bay, kind
for isolators, bays and the signs of transformers and couplers). Or it is a file in drawlist's
text, or - for such a text on standard input. Columns may stand in any order, and others beside them
are passed over. A bus with an empty coordinate counts as one at (0, 0).

Options of the sheet (draw, compare):
  -o, --output FILE      the sheet to write: FILE.pdf is a PDF file with the index in it;
                         FILE.html a page for a browser with the index in it, a search by
                         number, name, substation and isolator, and circuits that light up;
                         any other name an SVG file, with pages of the index beside it where
                         the sheet has no room for it (FILE-index.svg, FILE-index-2.svg);
                         - is standard output, an SVG without those pages (draw)
      --paper SIZE       A0, A1, A2, A3 or A4 (audit too)                      [A1]
      --index-paper SIZE paper of the index's pages [A3, that of the tiles, or the sheet's
                         where that is A4 or A3 would take more than 16 pages]
      --tiles SIZE       cut a PDF sheet up for this paper: pages that overlap by 8 mm, with
                         marks to cut and join them by
      --colours FILE     colours of voltages: lines kv,colour,style under a header line of
                         these names; kv is a number, 'below 1', 'other' or 'mixed', colour
                         #rrggbb, style solid, double, long or short
      --title TEXT       the sheet's title                       [the network's name]

      --date TEXT        the sheet's date; without it the title block has none
      --revision TEXT    its revision
      --drawn-by NAME    who drew it
      --checked-by NAME  who checked it: a field that isn't said is left to be filled in by hand
      --revisions FILE   the revisions up to this one, the oldest first: comma-separated rows
                         under a header line with revision, date, change, by; the last three are
                         shown, and the last one gives the sheet's revision and date
      --around STATION   draw a part: what is within --hops of a substation
      --hops N           along so many branches, open ones too                       [2]
      --square SQUARE    a part: the substations in a square of the whole sheet, such as C4
      --voltage KV       a part: the buses of one voltage; of several of these options a bus has
                         to be in all (draw, audit)
      --numbers-from LAST  keep the numbers that branches have on LAST: the last sheet (SVG or PDF),
                         its list of numbers (columns number, branch, from, to, state), or the
                         folder of the last export; new branches get new numbers, and a retired
                         number is never given again (audit and check too)
      --anyway           draw substations without coordinates at (0, 0), and one so far off
                         that boxes become too small to read
      --csv FILE         write what differs as comma-separated rows (compare)

Options of the drawing:
      --fill F           typical size of a box, in median distances between
                         neighbouring substations: above 0, at most 16        [0.8];
                         'largest': the largest of 1/64 to 64/64 at which every box
                         finds a free place
      --search N         places tried either side of a substation's own,
                         on each axis: 0 to 20                                 [10]
      --iterations N     rounds of spacing lines between boxes: 0 to 100;
                         0 draws lines straight                                [10]
      --tier-radius R    draw substations in dense parts smaller: neighbours are
                         counted within R median distances: 0 to 1000; 0 counts
                         none, so that all have one scale                       [0]
      --tier-counts A,B  from A (B) neighbours up a substation is drawn at
                         the first (second) scale                           [12,30]
      --tier-scales A,B  the two scales: 1/64 to 1                        [2/3,4/9]
      --bar-gap G        from one bar to the next, in rows of a box: 0.5 to 8   [2]
      --padding P        from each side of a box to its bars and rows:
                         0.5 to 8                                               [1]
      --shortest-bar S   the least length of a bar: 0.5 to 8; a bar can leave its
                         box where half of it is above the padding and half a row
                         more, and a note names such bars                       [2]
      --buffer B         kept free around each box: 0.5 to 8                    [1]
      --y-up             y grows upwards, as northings do; without it, downwards
      --as-asked         draw by these options alone, each line where the library puts it.
                         Without it the best of several drawings is taken, measured by what
                         may be misread: with this fill, 0.85 and 0.7 of it, these rounds and
                         3, and three meshes, with lines led clear of boxes and each other;
                         an option that is given isn't varied (draw, audit, compare)

list has drawlist's defaults: --fill 0.5 --iterations 0 --tier-radius 3.

Other options:
      --strict           exit with 1 where boxes overlap, lines run through boxes or a place
                         may be misread (draw, audit), or a place may be misread (check)
      --allow-empty      take an export without buses or branches (all but list)
  -h, --help             print this help
  -V, --version          print the version

Exit status: 0 done, or nothing differs or is wrong; 1 done, but with --strict something was found
that it asks for, or compare found a difference, or check found the sheet wrong; 2 refused,
unreadable or not written. draw and compare check a sheet as check does before
it takes its place. Where the status is 2, no sheet is written, and one that was there stays as
it was.
";
