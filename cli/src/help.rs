//! What `--help` prints. The examples are run by a test (`tests/command/help.rs`), from
//! the repository's top.

macro_rules! usage {
    () => {
        "\
usage: pokyandi stations [--as metres|km|estaca|csv] [SHEET..]
       pokyandi pegs [--every 20m] [--as metres|km|estaca|csv] [SHEET..]
       pokyandi profile [--every 20m] [--from STATION] [--to STATION]
                        [--as metres|km|estaca|csv] [TEXT..]
       pokyandi elements SHEET..
       pokyandi check SHEET..
       pokyandi convert --to 1|2 SHEET..
       pokyandi make [--edition 1|2] TEXT SHEET
       pokyandi show SHEET
       pokyandi table [--as csv] [THOUSANDTH LENGTH]
       pokyandi SUBCOMMAND --help
       pokyandi --help | --version
"
    };
}

/// The subcommands in short.
pub const USAGE: &str = usage!();

/// The help of the command as a whole.
pub const ALL: &str = concat!(
    usage!(),
    "
Stations of road alignments from packed sheets, heights of profiles, and the table of
the unit spiral.

stations   the stations of TS, SC, CS and ST of every curve, and of the end
pegs       a list for the crew: the element under every 20 m and every point
profile    the heights of a profile, from a plain text with grades and vertices
elements   X, Y, k, p, D and TT of every curve, and the straights
check      a line for each sheet: fine, or why it is refused, with the limit missed
convert    sheets in the other edition, many in one run; edition 2 goes past 200 km
make       the sheet of a plain text, with distances and deflections or with points
show       the text of a sheet
table      the unit spiral table for the field, or X and Y of one spiral from it

The name - stands for standard input; as the SHEET of make, for standard output.
Where several sheets or texts are taken, --list FILE takes those that FILE names.
Exit status: 0 done; 1 a sheet, text or spiral is refused or faulty; 2 wrong usage, or
reading or writing failed. Results go to standard output, words to standard error.

From a plain text to stations:

    $ pokyandi make samples/line.txt /tmp/line.sheet
    /tmp/line.sheet: written, 21 bytes, 1 curve
    $ pokyandi stations /tmp/line.sheet
    POINT CURVE STATION
    TS 1 319.010720
    SC 1 359.010720
    CS 1 620.649187
    ST 1 660.649187
    END 0 879.659907
"
);

pub const STATIONS: &str = "\
usage: pokyandi stations [--as metres|km|estaca|csv] [SHEET..]
       pokyandi stations [--as metres|km|estaca|csv] --list FILE

Prints a line for each point of each sheet, in the order of the road: name, number
of the curve, station. The end of the line has curve 0. A sheet that is refused
gets REFUSED, number and place instead, and words on standard error.

  --as metres   319.010720, as the program stations prints it (the usual form)
  --as km       0+319.010720, kilometres and metres
  --as estaca   15 + 19.010720, estacas of 20 m and metres
  --as csv      sheet,point,curve,station with one heading for all sheets; of a
                refused one REFUSED, number and place stand for the point
  --list FILE   the sheets are those that FILE names, a line each

Without a sheet it reads standard input, as for the name -. Several sheets each get
a line SHEET NAME above their stations, but for csv; one that is refused or cannot
be read does not stop the others.

    $ pokyandi stations --as km samples/stations/case-01.sheet
    POINT CURVE STATION
    TS 1 0+319.010720
    SC 1 0+359.010720
    CS 1 0+620.649187
    ST 1 0+660.649187
    END 0 0+879.659907
";

pub const PEGS: &str = "\
usage: pokyandi pegs [--every 20m] [--as metres|km|estaca|csv] [SHEET..]
       pokyandi pegs [--every 20m] [--as metres|km|estaca|csv] --list FILE

Prints a line for each station to be pegged, in the order of the road: the start,
every station that is a whole multiple of the distance, TS, SC, CS and ST of every
curve, and the end. Where several of them meet there is one line; without a spiral
that is TS=SC, and CS=ST. Of each it prints, lengths in metres:

  STATION   in the form that --as asks for
  POINT     START, TS, SC, CS, ST or END, else -, in csv nothing
  ELEMENT   straight, spiral-in, arc or spiral-out; where two meet, the one that
            begins there
  NUMBER    of the curve; straights count from 0, the one before curve 1
  LENGTH    from the beginning of the element; on the spiral out back from ST
  X Y       on spirals: along the tangent from TS, on the spiral out from ST, and
            square to it, Y negative on a left curve; elsewhere 0

  --every LENGTH   the distance, 20m where none is given; without a unit it is in
                   metres; other forms are 500mm, 0+020km and 1+0e
  --as FORM        as for stations; csv has one heading for all sheets, and of a
                   refused one REFUSED, number and place stand for the point
  --list FILE      the sheets are those that FILE names, a line each

Without a sheet it reads standard input, as for the name -. Several sheets each get
a line SHEET NAME above their list, but for csv; one that is refused or cannot be
read does not stop the others. More than 1000000 distances on a line are an error.

    $ pokyandi pegs --every 50m --as km samples/stations/case-01.sheet | head -n 12
              STATION POINT ELEMENT    NUMBER       LENGTH          X          Y
         0+000.000000 START straight        0     0.000000   0.000000   0.000000
         0+050.000000 -     straight        0    50.000000   0.000000   0.000000
         0+100.000000 -     straight        0   100.000000   0.000000   0.000000
         0+150.000000 -     straight        0   150.000000   0.000000   0.000000
         0+200.000000 -     straight        0   200.000000   0.000000   0.000000
         0+250.000000 -     straight        0   250.000000   0.000000   0.000000
         0+300.000000 -     straight        0   300.000000   0.000000   0.000000
         0+319.010720 TS    spiral-in       1     0.000000   0.000000   0.000000
         0+350.000000 -     spiral-in       1    30.989280  30.985635   0.354257
         0+359.010720 SC    arc             1     0.000000   0.000000   0.000000
         0+400.000000 -     arc             1    40.989280   0.000000   0.000000
";

pub const PROFILE: &str = "\
usage: pokyandi profile [--every 20m] [--from STATION] [--to STATION]
                        [--as metres|km|estaca|csv] [TEXT..]
       pokyandi profile [OPTION..] --list FILE

Prints the heights of a road's profile, a line for each station, in order. The
profile is a plain text, one item on each line, in this order:

    speed 40
    start 12+340.5km
    height 845.250m
    grade -3.5%
    vertex 12+520km 4.25% 80m
    vertex 13+140km -6% 120m

Height is that of the road at the start, grade the first grade. A vertex, where two
grades prolonged meet, has its station, the grade behind it and the length of its
curve, half of it on each side; up to 32 vertices, in order. A length has the forms
that pokyandi make --help lists, without a unit mm, and a height may have a sign. A
grade has its %, up to four decimals and, where the road falls, a minus. The speed,
in km/h, decides how long a curve must be for sight. # begins a comment.

The list has the start, every station that is a whole multiple of the distance, the
points of every curve, and the two stations where it begins and ends. Where several
of them meet there is one line: MID=HIGH. Of each it prints:

  STATION   in the form that --as asks for
  POINT     START; BVC and EVC, where a curve begins and ends; MID, the station of
            the vertex; HIGH or LOW, the highest point of a crest or the lowest of a
            sag, to the nearest mm; else -, in csv nothing
  ELEMENT   grade, crest or sag, or curve between equal grades; where two meet, the
            one that begins there
  NUMBER    of the curve; grades count from 0, the one before curve 1
  HEIGHT    of the road, at MID too, in metres, rounded down to the mm

  --every LENGTH   the distance, 20m where none is given; without a unit it is in
                   metres; other forms are 500mm, 0+020km and 1+0e
  --from STATION   where the list begins, the start where none is given
  --to STATION     where it ends, up to 200+000km; the end of the last curve where
                   none is given, since a profile has no end of its own
  --as FORM        as for stations; csv has one heading for all texts, and of a
                   refused one REFUSED, number and place stand for the point
  --list FILE      the texts are those that FILE names, a line each

--from and --to take the forms of --every. Without a text it reads standard input, as
for the name -. Several texts each get a line TEXT NAME above their list, but for csv;
one that is refused or faulty or cannot be read does not stop the others. More than
1000000 distances are an error.

    $ pokyandi profile --every 50m --as km --to 12+620km samples/profile.txt
          STATION(km) POINT     ELEMENT NUMBER   HEIGHT(m)
        12+340.500000 START     grade        0     845.250
        12+350.000000 -         grade        0     844.917
        12+400.000000 -         grade        0     843.167
        12+450.000000 -         grade        0     841.417
        12+480.000000 BVC       sag          1     840.367
        12+500.000000 -         sag          1     839.861
        12+516.129000 LOW       sag          1     839.735
        12+520.000000 MID       sag          1     839.742
        12+550.000000 -         sag          1     840.290
        12+560.000000 EVC       grade        1     840.667
        12+600.000000 -         grade        1     842.367
        12+620.000000 -         grade        1     843.217
    $ pokyandi profile --from 13+000km --to 13+000km samples/profile.txt
           STATION(m) POINT     ELEMENT NUMBER   HEIGHT(m)
         13000.000000 -         grade        1     859.367
";

pub const ELEMENTS: &str = "\
usage: pokyandi elements SHEET..
       pokyandi elements --list FILE

Prints the elements of every curve and the straights of each sheet, in metres:
X and Y, abscissa and ordinate of SC from TS; k, abscissa of the centre; p, shift;
D, length of the arc; TT, tangent from the PI to TS and ST. Straight i is what the
tangents leave of distance i, from ST of curve i to TS of the next.

  --list FILE   the sheets are those that FILE names, a line each

    $ pokyandi elements samples/stations/case-01.sheet
    CURVE                X             Y             k             p             D            TT
    1            39.986941      0.761727     19.997824      0.190454    261.638467    180.989280
    STRAIGHT        LENGTH
    0           319.010720
    1           219.010720
";

pub const CHECK: &str = "\
usage: pokyandi check SHEET..
       pokyandi check --list FILE

Prints a line for each sheet: fine, with its curves and its end; or the number of
the refusal, the place, the value that was found, the limit that it misses and the
formula behind it.

  --list FILE   the sheets are those that FILE names, a line each

    $ pokyandi check samples/stations/case-01.sheet samples/stations/case-05-refused.sheet
    samples/stations/case-01.sheet: fine, 1 curve, end at 0+879.659907 km
    samples/stations/case-05-refused.sheet: refused 12 at curve 1: the radius is 167.750 m; the least is 167.751 m, by V² / (127 (e + f)) at V = 70 km/h, e = 8 % and f = 0.15
";

pub const CONVERT: &str = "\
usage: pokyandi convert --to 1|2 SHEET..
       pokyandi convert --to 1|2 --list FILE

Rewrites each sheet in its other edition, with the same line. Edition 1 holds a start
up to 200 km, edition 2 up to 4000 km; every sheet of edition 1 is converted, and back
every sheet that starts at 200 km or before.

  --to 1|2      the edition that the sheets shall have
  --list FILE   the sheets are those that FILE names, a line each

It says which sheets it leaves alone, and why: one that has the edition already, which
is no error, and one that is refused. Of several sheets the last line counts them, and
one that is refused or cannot be read or written does not stop the others. The name -
converts standard input to standard output.

A sheet is converted, read again and converted back before its file is replaced; the
new one is written beside the old one, read back and renamed. A run that is interrupted
leaves every sheet whole, in one edition or the other: start it again.

    $ pokyandi make samples/line.txt /tmp/line.sheet
    /tmp/line.sheet: written, 21 bytes, 1 curve
    $ pokyandi convert --to 2 /tmp/line.sheet
    /tmp/line.sheet: converted to edition 2, 21 bytes
    $ pokyandi show /tmp/line.sheet | head -n 1
    edition 2
    $ pokyandi make --edition 2 samples/line.txt /tmp/other.sheet
    /tmp/other.sheet: written in edition 2, 21 bytes, 1 curve
    $ pokyandi convert --to 1 /tmp/line.sheet /tmp/other.sheet /tmp/line.sheet
    /tmp/line.sheet: left alone: it has edition 1 already
    3 sheets: 2 converted to edition 1, 1 had it already, 0 refused, 0 failed
";

pub const MAKE: &str = "\
usage: pokyandi make [--edition 1|2] TEXT SHEET

Makes the packed sheet of a plain text, one item on each line, in this order:

    speed 70
    crossfall 8
    start 0+000km
    distance 500m
    curve right 49d22m44s 350m 40m
    distance 400m

  --edition 1|2   the edition of the sheet; without it the text may name the edition
                  by an item before the curves, edition 2, and else it is 1. Edition 1
                  holds a start up to 200 km, edition 2 up to 4000 km.

A curve has side (right or left), deflection, radius and spiral length, 0 for none;
before it stands the distance to its PI from the start or the PI before, and behind
the last curve the distance from its PI to the end. Every length and angle may be
written in one of these forms:

    310500  310500mm         mm
    310.5m  310,5m           metres
    12+340.5km               kilometres and metres
    617+0.00e                estacas of 20 m, and metres
    177764                   seconds of arc
    49d22m44s  49°22'44\"     degrees, minutes and seconds
    49.5d                    degrees

In place of distances and curves a text may have the points of the line as a survey
gives them, each by its east and its north from one origin: the start, every PI with
its radius and spiral behind, and the end.

    point -120.250m 85m
    point 90100 259120 120m 40m
    point 332.230m 241.755m 100m 40m
    point +528m 408.9m

A coordinate is a length that may have a sign, up to 10000 m either way. The
distances and deflections that are found, rounded down to the mm and the second, are
told on standard error, at the point where the distance begins: compare them with
the field book. A line turns by 60 degrees at most at a point.

Speed is in km/h; crossfall, the greatest superelevation e, in percent. What is
finer than a mm or a second is an error, as are decimals without a unit. # begins a
comment; blank lines, tabs, a byte order mark and CRLF are taken.

The sheet is written beside the old one, read back and renamed: after an error the
old one is as it was. Where the stations of the line are refused, words say why, and
the exit status is 1; of distances and curves the sheet is made all the same, for
the exchange, of points none is made. A value that is probably in the wrong unit
gets a warning.

    $ pokyandi make samples/line.txt /tmp/line.sheet
    /tmp/line.sheet: written, 21 bytes, 1 curve
    $ pokyandi make samples/ridge.txt /tmp/ridge.sheet
    samples/ridge.txt:9: distance 0: 273.065 m
    samples/ridge.txt:10: curve 1: right 43°43'07\"
    samples/ridge.txt:10: distance 1: 242.751 m
    samples/ridge.txt:11: curve 2: left 44°35'31\"
    samples/ridge.txt:11: distance 2: 257.416 m
    /tmp/ridge.sheet: written, 32 bytes, 2 curves
";

pub const SHOW: &str = "\
usage: pokyandi show SHEET

Prints the text of a sheet, which pokyandi make takes back to the same bytes.

    $ pokyandi show samples/stations/case-01.sheet
    edition 1
    speed 70km/h
    crossfall 8%
    start 0+000.000km
    distance 500.000m
    curve right 49d22m44s 350.000m 40.000m  # 1
    distance 400.000m
";

pub const TABLE: &str = "\
usage: pokyandi table [--as csv]
       pokyandi table [--as csv] THOUSANDTH LENGTH

Prints the unit spiral table, x and y at the end of a spiral of length one, in 501
rows: the spiral angle s = L / 2R in thousandths of a radian, 0 to 500, and in radians;
x along the tangent and y square to it, both for each metre of spiral. A spiral of
length L has X = L x and Y = L y, in the unit of L.

With a thousandth and a length it prints X and Y of that spiral, in metres. They are
those of pokyandi elements for the same length and angle.

  THOUSANDTH   the angle, a whole number, 0 to 500; 500 has a spiral as long as R
  LENGTH       of the spiral, up to 500 m; without a unit it is in metres, other forms
               are 80000mm, 0+080km and 4+0e
  --as csv     thousandth,angle(rad),x,y as a heading, or with a spiral
               thousandth,angle(rad),length(m),X(m),Y(m), and a line for each row

A spiral that is refused gets REFUSED, number and place instead, and words on standard
error: 25 for the angle, 11 for the length.

A spiral of 80 m at R = 160 m: s = 80 / 320 = 0.250. Row 250 has x = 0.993768058 and
y = 0.082962049, so X = 80 x = 79.501 m and Y = 80 y = 6.637 m.

    $ pokyandi table | sed -n '1p; 251,253p'
    THOUSANDTH ANGLE(rad)           x           y
           249      0.249 0.993817671 0.082633148
           250      0.250 0.993768058 0.082962049
           251      0.251 0.993718249 0.083290915
    $ pokyandi table 250 80m
    THOUSANDTH ANGLE(rad)   LENGTH(m)        X(m)        Y(m)
           250      0.250      80.000   79.501445    6.636964
    $ pokyandi table --as csv | tail -n 1
    500,0.500,0.975287682,0.163714150
";
