"""Single cases: every mistake, with its line and column, and what spreadsheets export."""

import itertools

import csv_sheets
from setting import HEADINGS, answer, exercise, settings

# Two cells and four nets: document 01's listing.
LISTING = ("name,kind,datain,clk,aclr,regout,dataa,combout\n"
           "state,register,next,clock,clear,now,,\n"
           "logic,combinational,,,,,now,next\n")
PLACES = "apprentice,7\ncell,x,y,le\nstate,2,1,0\nlogic,2,1,0\n"
LISTING_LXE = exercise(4, (2, 0, [4, 6, 0, 8, 0, 0, 0, 10, 0, 0, 0]), (1, 0, [10, 0, 0, 0, 0, 4, 0, 0, 0, 0, 0]))
LISTING_LXA = answer(7, (2, 1, 0), (2, 1, 0))

# Two entries: clk alone, and clk with aclr.
BOARD = "version,2\nboard,3\nentry,clk,ena,aclr,sclr,sload\n0,x,,,,\n1,x,,x,,\n"
BOARD_LXT = settings(2, 3, 1, 5)

# What stands in exercise.csv, and the lines that refuse it.
EXERCISE_MISTAKES = [
    # no headings
    ("", ["line 1: there is no row with the headings"]),
    ("\n\n,,,\n , \n", ["line 1: there is no row with the headings"]),
    (" ;; \n;;;\n", ["line 1: there is no row with the headings"]),
    ("\t\t\n", ["line 1: there is no row with the headings"]),
    (b"\xef\xbb\xbf", ["line 1: there is no row with the headings"]),
    # columns
    ("name,kind,datae,clk\n", ["line 1, column 3 ('datae'): unknown column"]),
    ("\n\nname;kind;colour;flavour\n", ["line 3, column 3 ('colour'): unknown column", "line 3, column 4 ('flavour'): unknown column"]),
    ('kind,"two\nlines"\n', ["line 1, column 2 ('two\\nlines'): unknown column"]),
    ("kind,clk,ena, CLK \n", ["line 1, column 4 (clk): a second column clk; the first is column 2"]),
    ("kind,Name,name\n", ["line 1, column 3 (name): a second column name; the first is column 2"]),
    ("name,clk\na,b\n", ["line 1: there is no column kind"]),
    ("eins;zwei\n1;2\n", ["line 1, column 1 ('eins'): unknown column", "line 1, column 2 ('zwei'): unknown column",
                          "line 1: there is no column kind"]),
    # fields without a heading
    ("kind,clk\nregister,a,b\n", ["line 2, column 3: there is no heading above 'b'"]),
    ("kind,clk,,\nregister,a,,\nregister,a,,b\n", ["line 3, column 4: there is no heading above 'b'"]),
    ("kind,,clk\nregister,x,a\n", ["line 2, column 2: there is no heading above 'x'"]),
    # kinds
    ("kind,clk\nregister,a\nLatch,b\n", ["line 3, column 1 (kind): the kind is combinational, register or net, not 'Latch'"]),
    ("clk,kind\na,\n", ["line 2, column 2 (kind): the kind is combinational, register or net, not ''"]),
    ("clk,kind\na\n", ["line 2, column 2 (kind): the kind is combinational, register or net, not ''"]),
    ("kind\n3\n0\n", ["line 2, column 1 (kind): the kind is combinational, register or net, not '3'",
                      "line 3, column 1 (kind): the kind is combinational, register or net, not '0'"]),
    # ports of the other kind
    ("kind,dataa,clk\ncombinational,a,b\n", ["line 2, column 3 (clk): a combinational cell has no clk"]),
    ("kind,dataa,clk,cout\nregister,a,b,GND\n", ["line 2, column 2 (dataa): a register has no dataa",
                                                 "line 2, column 4 (cout): a register has no cout"]),
    # sum_lutc_input
    ("kind,sum_lutc_input\n1,qfbk\n", ["line 2, column 2 (sum_lutc_input): this is datac, cin or empty, not 'qfbk'"]),
    ("kind,sum_lutc_input\n1,1\n", ["line 2, column 2 (sum_lutc_input): this is datac, cin or empty, not '1'"]),
    # names
    ("name,kind\na,1\nb,1\na,2\n", ["line 4, column 1 (name): two cells have the name 'a'; the first is at line 2"]),
    ("name,kind\n\n a ,1\n\n\"a\",2\n", ["line 5, column 1 (name): two cells have the name 'a'; the first is at line 3"]),
    ("name,kind\n" + "x" * 50 + ",1\n" + "x" * 50 + ",1\n",
     ["line 3, column 1 (name): two cells have the name '" + "x" * 38 + "..'; the first is at line 2"]),
    # signals
    ("kind,dataa\n1,//a\n", ["line 2, column 2 (dataa): '//a' is no signal: the name of a net does not begin with /"]),
    ("kind,dataa\n1,/\n", ["line 2, column 2 (dataa): '/' is no signal: the name is missing"]),
    ("kind,dataa\n1,/ /gnd\n", ["line 2, column 2 (dataa): '/ /gnd' is no signal: the name of a net does not begin with /"]),
    # rows that declare a net
    ("name,kind,dataa\nGnd,net,\n", ["line 2, column 1 (name): 'Gnd' is no net: this is a constant"]),
    ("name,kind,dataa\n/a,NET,\n", ["line 2, column 1 (name): '/a' is no net: the name of a net does not begin with /"]),
    ("name,kind,dataa\n,net,\n", ["line 2, column 1 (name): '' is no net: the name is missing"]),
    ("kind,dataa\nnet,\n", ["line 2, column 1 (kind): '' is no net: the name is missing"]),
    ("name,kind,dataa,sum_lutc_input\na,net,b,\nb,net,,cin\n", ["line 2, column 3 (dataa): a row of kind net has a name and nothing else",
                                                              "line 3, column 4 (sum_lutc_input): a row of kind net has a name and nothing else"]),
    ("name,kind\na,net\nb,net\na,net\n", ["line 4, column 1 (name): two rows of kind net have the name 'a'; the first is at line 2"]),
    # quotes
    ('kind,clk\nregister,"a\n', ["line 2, column 2 (clk): a quote opens here and is not closed"]),
    ('"kind,clk\nregister,a\n', ["line 1, column 1: a quote opens here and is not closed"]),
    ('kind,clk\nregister,"a""\nregister,""\n', ["line 2, column 2 (clk): a quote opens here and is not closed"]),
    ('kind,clk,ena\nregister,"a,b\nregister,"c",d\n', ["line 2, column 2 (clk): text follows the closing quote, which is at line 3"]),
    ('kind,clk\nregister,"a"b\n', ["line 2, column 2 (clk): text follows the closing quote, which is at line 2"]),
    ('kind,clk\nregister,"a\r\nb"\nregister, "c" d\n', ["line 4, column 2 (clk): text follows the closing quote, which is at line 4"]),
    # text that is not UTF-8
    (b"kind,clk\nregister,caf\xe9\n", ["line 2, column 2 (clk): this is not UTF-8 text; save the file as CSV UTF-8"]),
    (b"kind,clk,ena\nregister,a,b\nregister,\xff,\xc3\n", ["line 3, column 2 (clk): this is not UTF-8 text; save the file as CSV UTF-8",
                                                        "line 3, column 3 (ena): this is not UTF-8 text; save the file as CSV UTF-8"]),
    (b"kind,clk\nregister,\xed\xa0\x80\n", ["line 2, column 2 (clk): this is not UTF-8 text; save the file as CSV UTF-8"]),
    (LISTING.encode("utf-16"), ["line 1, column 1 ('\\udcff\\udcfen\\x00a\\x00m\\x00e\\x00'): this is not UTF-8 text; save the file as CSV UTF-8"]),
    # lines that are counted
    ('name,kind,clk\n"a\nb\r\nc",register,"d\re"\nf,latch,\n', ["line 6, column 2 (kind): the kind is combinational, register or net, not 'latch'"]),
    ('name,kind,clk\n"a\n\n",latch,\n', ["line 4, column 2 (kind): the kind is combinational, register or net, not 'latch'"]),
    ("kind\r1\r\r2\rlatch\r", ["line 5, column 1 (kind): the kind is combinational, register or net, not 'latch'"]),
    ("kind\r\n1\r\n\r\n2\r\nlatch", ["line 5, column 1 (kind): the kind is combinational, register or net, not 'latch'"]),
    ("kind\n1\n\r\nlatch", ["line 4, column 1 (kind): the kind is combinational, register or net, not 'latch'"]),
    # several
    ("name,kind,clk,dataa\na,latch,,\na,1,b,//c\na,2,d,e\n",
     ["line 2, column 2 (kind): the kind is combinational, register or net, not 'latch'",
      "line 3, column 3 (clk): a combinational cell has no clk",
      "line 3, column 4 (dataa): '//c' is no signal: the name of a net does not begin with /",
      "line 4, column 1 (name): two cells have the name 'a'; the first is at line 3",
      "line 4, column 4 (dataa): a register has no dataa"]),
]

# Refusals of the writer.
OUTPUT = "can't stand here; an output takes a net that is not inverted, and a register no sum_lutc_input"
AT_MOST = "up to here; a sheet has at most 512 cells and 1024 nets"


def many_nets(count):
    """A table whose nets are as many as count, seven a row."""
    names = ["n%d" % n for n in range(count)]
    return "kind,dataa,datab,datac,datad,cin,combout,cout\n" + "".join("1,%s\n" % ",".join(names[n:n + 7]) for n in range(0, count, 7))


EXERCISE_REFUSED = [
    ("kind,dataa,combout\n1,GND,\n1,a,GND\n", ["line 3, column 3 (combout): refused with 15: 'GND' " + OUTPUT]),
    ("kind,regout\n2,\n2,/a\n2,vcc\n", ["line 3, column 2 (regout): refused with 15: '/a' " + OUTPUT]),
    ("kind,cout,combout\n1,/gnd,/a\n", ["line 2, column 3 (combout): refused with 15: '/a' " + OUTPUT]),
    ("sum_lutc_input,kind\ncin,1\nCin,2\n", ["line 3, column 1 (sum_lutc_input): refused with 15: 'Cin' " + OUTPUT]),
    # 15 in a lower row comes before 16 in a higher one
    ("kind,regout\n2,a\n2,a\n2,GND\n", ["line 4, column 2 (regout): refused with 15: 'GND' " + OUTPUT]),
    ("name,kind,regout,combout\nx,net,,\n,2,a,\n,1,,b\n,1,,a\n,2,b,\n",
     ["line 5, column 4 (combout): refused with 16: the net 'a' is driven already, by the cell at line 3"]),
    ("kind,cout,combout\n1,a,a\n", ["line 2, column 2 (cout): refused with 16: the net 'a' is driven already, by this cell"]),
    ("kind,cout,combout\n1,b,a\n1,a,c\n", ["line 3, column 2 (cout): refused with 16: the net 'a' is driven already, by the cell at line 2"]),
    ("kind\n" + "1\n" * 513, ["line 514: refused with 13: 513 cells and 0 nets " + AT_MOST]),
    ("kind\n" + "1\n\n" * 600, ["line 1026: refused with 13: 513 cells and 0 nets " + AT_MOST]),
    (many_nets(1025), ["line 148: refused with 13: 147 cells and 1025 nets " + AT_MOST]),
    (many_nets(3584), ["line 148: refused with 13: 147 cells and 1029 nets " + AT_MOST]),
    (many_nets(70000), ["line 148: refused with 13: 147 cells and 1029 nets " + AT_MOST]),
    ("name,kind\n" + "".join("n%d,net\n" % n for n in range(1025)), ["line 1026: refused with 13: 0 cells and 1025 nets " + AT_MOST]),
]

# What stands in answer.csv beside LISTING, and the lines that refuse it.
FIRST = "the first row is the word apprentice and the apprentice's number"
LIMITS = "can't stand here; x and y are 0 to 31, le is 0 to 15"
ANSWER_MISTAKES = [
    ("", ["line 1: there is no row with the apprentice"]),
    ("cell,x,y,le\nstate,1,1,1\n", ["line 1, column 1: " + FIRST]),
    ("\n7,apprentice\ncell,x,y,le\n", ["line 2, column 1: " + FIRST]),
    ("apprentice\ncell,x,y,le\n", ["line 1, column 2: the number is missing"]),
    ("apprentice,seven\ncell,x,y,le\n", ["line 1, column 2: 'seven' is no number"]),
    ("apprentice,-7\ncell,x,y,le\n", ["line 1, column 2: '-7' is no number"]),
    ("apprentice,7,8,\ncell,x,y,le\n", ["line 1, column 3: '8' stands after the apprentice's number"]),
    ("apprentice,4294967296\ncell,x,y,le\n", ["line 1, column 2: the apprentice is at most 4294967295"]),
    ("apprentice," + "9" * 5000 + "\ncell,x,y,le\n", ["line 1, column 2: the apprentice is at most 4294967295"]),
    ("\n\napprentice,7\n\n", ["line 3: there is no row with the headings after this one"]),
    ("apprentice,7\ncell,x,y,le,z\n", ["line 2, column 5 ('z'): unknown column"]),
    ("apprentice,7\ncell,x,y,le,apprentice\n", ["line 2, column 5 ('apprentice'): unknown column"]),
    ("apprentice,7\nle,cell,y\n", ["line 2: there is no column x"]),
    ("apprentice,7\nX,cell,x,y,le\n", ["line 2, column 3 (x): a second column x; the first is column 1"]),
    ("apprentice,7\ncell,x,y,le\nstate,2,1,0\nlogic,2,one,0\n", ["line 4, column 3 (y): 'one' is no number"]),
    ("apprentice,7\ncell,x,y,le\nstate,2.0,1,0\nlogic,2,1,1e1\n", ["line 3, column 2 (x): '2.0' is no number",
                                                                   "line 4, column 4 (le): '1e1' is no number"]),
    ("apprentice,7\ncell,x,y,le\nstate,2,1,\nlogic,2\n", ["line 3, column 4 (le): the number is missing",
                                                         "line 4, column 3 (y): the number is missing",
                                                         "line 4, column 4 (le): the number is missing"]),
    ("apprentice,7\ncell,x,y,le\nstate,2,1,0,9\nlogic,2,1,0\n", ["line 3, column 5: there is no heading above '9'"]),
    ("apprentice,7\ncell,x,y,le\nstate,2,1,0\nlogic,2,1,0\nstate,3,1,0\n",
     ["line 5, column 1 (cell): cell 0 ('state') has a place already, at line 3"]),
    ("apprentice,7\ncell,x,y,le\nstate,2,1,0\nlogic,2,1,0\n1,3,1,0\n", ["line 5, column 1 (cell): cell 1 ('logic') has a place already, at line 4"]),
    ("apprentice,7\ncell,x,y,le\nstate,2,1,0\nlogic,2,1,0\nState,3,1,0\n", ["line 5, column 1 (cell): there is no cell 'State'"]),
    ("apprentice,7\ncell,x,y,le\n0,2,1,0\n1,2,1,0\n2,3,1,0\n", ["line 5, column 1 (cell): there is no cell '2'"]),
    ("apprentice,7\nx,y,le,cell\n2,1,0,state\n2,1,0,logic\n2,1,0,\n", ["line 5, column 4 (cell): the cell is missing"]),
    ("apprentice,7\nx,y,le,cell\n2,1,0,state\n", [": cell 1 ('logic'), line 3 of exercise.csv, has no place"]),
    ("apprentice,7\ncell,x,y,le\n", [": cell 0 ('state'), line 2 of exercise.csv, has no place",
                                     ": cell 1 ('logic'), line 3 of exercise.csv, has no place"]),
    ("apprentice,7\ncell,x,y,le\nlogik,2,1,0\nstate,2,1,0\n", ["line 3, column 1 (cell): there is no cell 'logik'",
                                                               ": cell 1 ('logic'), line 3 of exercise.csv, has no place"]),
    ('apprentice,7\ncell,x,y,le\nstate,2,1,"0\n', ["line 3, column 4 (le): a quote opens here and is not closed"]),
    (b"apprentice,7\ncell,x,y,le\nst\xe4te,2,1,0\n", ["line 3, column 1 (cell): this is not UTF-8 text; save the file as CSV UTF-8"]),
    (b"apprentice,7\xa0\ncell,x,y,le\n", ["line 1, column 2: this is not UTF-8 text; save the file as CSV UTF-8"]),
    # refusals of the writer
    ("apprentice,0\ncell,x,y,le\n0,2,1,0\n1,2,1,0\n", ["line 1, column 2: refused with 23: the apprentice can't be 0"]),
    ("apprentice;000\ncell;x;y;le\n0;2;1;0\n1;2;1;0\n", ["line 1, column 2: refused with 23: the apprentice can't be 0"]),
    ("apprentice,7\ncell,x,y,le\n1,2,1,0\n0,32,1,0\n", ["line 4, column 2 (x): refused with 26: '32' " + LIMITS]),
    ("apprentice,7\ncell,y,x,le\n1,31,31,16\n0,31,31,15\n", ["line 3, column 4 (le): refused with 26: '16' " + LIMITS]),
    ("apprentice,7\ncell,y,x,le\n1,31,31,15\n0,256,31,15\n", ["line 4, column 2 (y): refused with 26: '256' " + LIMITS]),
    ("apprentice,7\ncell,y,x,le\n1,31,31,15\n0,31,31,65536\n", ["line 4, column 4 (le): refused with 26: '65536' " + LIMITS]),
    ("apprentice,7\ncell,y,x,le\n1,31,31,15\n0,31," + "9" * 30 + ",0\n", ["line 4, column 3 (x): refused with 26: '" + "9" * 30 + "' " + LIMITS]),
    # the lowest cell first, whatever the row
    ("apprentice,7\ncell,x,y,le\n1,40,1,0\n0,2,1,50\n", ["line 4, column 4 (le): refused with 26: '50' " + LIMITS]),
]

# What stands in settings.csv, and the lines that refuse it.
VERSION, NUMBER = "the first row is the word version and the version's number", "the second row is the word board and the board's number"
ROLE_ROW = "entry,clk,ena,aclr,sclr,sload\n"
FIRST_ROWS = "version,1\nboard,0\n" + ROLE_ROW
HUGE = "9" * 5000
SETTINGS_MISTAKES = [
    # the rows above the headings
    ("", ["line 1: there is no row with the version"]),
    ("\n\n,,,\n", ["line 1: there is no row with the version"]),
    (" version ;1\n\n", ["line 1: there is no row with the board after this one"]),
    ("\nversion,1\n\nboard,0\n", ["line 4: there is no row with the headings after this one"]),
    ("version,x\n", ["line 1, column 2: 'x' is no number", "line 1: there is no row with the board after this one"]),
    ("board,0\nversion,1\n" + ROLE_ROW, ["line 1, column 1: " + VERSION, "line 2, column 1: " + NUMBER]),
    (ROLE_ROW + "0,x,,,,\n", ["line 1, column 1: " + VERSION, "line 2, column 1: " + NUMBER]),
    ("version,1\n" + ROLE_ROW, ["line 2, column 1: " + NUMBER]),
    ("version\nboard\n" + ROLE_ROW, ["line 1, column 2: the number is missing", "line 2, column 2: the number is missing"]),
    ("version,one\nboard,-1\n" + ROLE_ROW, ["line 1, column 2: 'one' is no number", "line 2, column 2: '-1' is no number"]),
    ("version,1,2\nboard,0,,x\n" + ROLE_ROW, ["line 1, column 3: '2' stands after the version's number",
                                            "line 2, column 4: 'x' stands after the board's number"]),
    ("version,2\nboard,65536\n" + ROLE_ROW, ["line 2, column 2: the board is at most 65535"]),
    ("version,2\nboard," + HUGE + "\n" + ROLE_ROW, ["line 2, column 2: the board is at most 65535"]),
    # columns
    ("version,1\nboard,0\nentry,clk,ena,aclr,sclr\n", ["line 3: there is no column sload"]),
    ("version,1\nboard,0\nclk,ena,aclr,sclr,sload\n", ["line 3: there is no column entry"]),
    ("version,1\nboard,0\nentry,clk,ena,aclr,aload,sclr,sload\n", ["line 3, column 5 ('aload'): unknown column"]),
    ("version,1\nboard,0\nentry,clk,ena,aclr,sclr,sload,CLK\n", ["line 3, column 7 (clk): a second column clk; the first is column 2"]),
    (FIRST_ROWS + "0,x,,,,,x\n", ["line 4, column 7: there is no heading above 'x'"]),
    # roles
    (FIRST_ROWS + "0,y,,,,\n", ["line 4, column 2 (clk): this is x or empty, not 'y'"]),
    (FIRST_ROWS + "0,x,,,,2\n1,,xx,-,,\n", ["line 4, column 6 (sload): this is x or empty, not '2'",
                                           "line 5, column 3 (ena): this is x or empty, not 'xx'",
                                           "line 5, column 4 (aclr): this is x or empty, not '-'"]),
    # entries
    (FIRST_ROWS + "first,x,,,,\n", ["line 4, column 1 (entry): 'first' is no number"]),
    (FIRST_ROWS + ",x,,,,\n0.0,x,,,,\n", ["line 4, column 1 (entry): the number is missing", "line 5, column 1 (entry): '0.0' is no number"]),
    (FIRST_ROWS + "0,x,,,,\n1,,x,,,\n00,,,x,,\n", ["line 6, column 1 (entry): entry 0 has a row already, at line 4"]),
    (FIRST_ROWS + "1,x,,,,\n2,,x,,,\n", ["line 4, column 1 (entry): entry 0 has no row, so '1' can't stand here"]),
    (FIRST_ROWS + "5,x,,,,\n0,,x,,,\n02,,x,,,\n", ["line 6, column 1 (entry): entry 1 has no row, so '02' can't stand here"]),
    (FIRST_ROWS + "0,x,,,,\n" + "9" * 30 + ",,x,,,\n", ["line 5, column 1 (entry): entry 1 has no row, so '" + "9" * 30 + "' can't stand here"]),
    # quotes and text
    (FIRST_ROWS + '0,"x,,,,\n', ["line 4, column 2 (clk): a quote opens here and is not closed"]),
    (FIRST_ROWS + '0,"x"y,,,,\n', ["line 4, column 2 (clk): text follows the closing quote, which is at line 4"]),
    (b"version,1\nboard,0\nentry,clk,ena,aclr,sclr,sload\xa0\n",
     ["line 3, column 6 ('sload\\udca0'): this is not UTF-8 text; save the file as CSV UTF-8"]),
    (FIRST_ROWS.encode() + b"0,\xd7,,,,\n", ["line 4, column 2 (clk): this is not UTF-8 text; save the file as CSV UTF-8"]),
]

# Refusals of the writer.
VERSIONS = "can't stand here; the version is 1 or 2, and in version 1 the board is 0"
TOO_MANY = "refused with 73: entry 8 is one too many; a sheet has at most 8"
SETTINGS_REFUSED = [
    ("version,0\nboard,0\n" + ROLE_ROW, ["line 1, column 2: refused with 72: '0' " + VERSIONS]),
    ("version,3\nboard,7\n" + ROLE_ROW, ["line 1, column 2: refused with 72: '3' " + VERSIONS]),
    ("version,65537\nboard,0\n" + ROLE_ROW, ["line 1, column 2: refused with 72: '65537' " + VERSIONS]),
    ("version," + HUGE + "\nboard,0\n" + ROLE_ROW, ["line 1, column 2: refused with 72: '" + "9" * 38 + "..' " + VERSIONS]),
    ("version,1\nboard,2\n" + ROLE_ROW, ["line 2, column 2: refused with 72: '2' " + VERSIONS]),
    (FIRST_ROWS + "".join("%d,x,,,,\n" % entry for entry in range(9)), ["line 12, column 1 (entry): " + TOO_MANY]),
    (FIRST_ROWS + "".join("%d,,,,,\n" % entry for entry in reversed(range(300))), ["line 295, column 1 (entry): " + TOO_MANY]),
    # 72 comes before 73
    ("version,1\nboard,1\n" + ROLE_ROW + "".join("%d,x,,,,\n" % entry for entry in range(9)), ["line 2, column 2: refused with 72: '1' " + VERSIONS]),
]

# What stands in settings.csv and the sheet that comes from it.
SETTINGS_TAKEN = [
    (BOARD, BOARD_LXT),
    ("version,1\nboard,0\nentry,clk,ena,aclr,sclr,sload", settings(1, 0)),
    ("version,2\nboard,0\n" + ROLE_ROW, settings(2, 0)),
    ("version,2\nboard,65535\n" + ROLE_ROW, settings(2, 65535)),
    (" Version , 02 \nBOARD,0003\n\nSload,ENTRY,aclr,sclr,Ena,clk\n,1,x,,,X\n,0,,,,x\n", BOARD_LXT),
    # ways of writing
    (FIRST_ROWS + "0,x,X,1,yes,TRUE\n1,Yes,no,0,False,\n", settings(1, 0, 31, 1)),
    # document 01's board, one entry by one and its rows in another order
    (FIRST_ROWS + "3,,x,,,x\n0,x,,,,\n5,,,,x,x\n1,x,,x,,\n4,,,x,x,\n2,x,x\n", settings(1, 0, 1, 5, 3, 18, 12, 24)),
    # entries that serve nothing, and the most
    (FIRST_ROWS + "0,,,,,\n1\n\n2,,,x,,\n", settings(1, 0, 0, 0, 4)),
    ("version,2\nboard,1\n" + ROLE_ROW + "".join("%d,x,x,x,x,x\n" % entry for entry in range(8)), settings(2, 1, *[31] * 8)),
]

# Names of digits: the names of three cells, what stands in answer.csv, and the cells that can be meant.
DIGIT_NAMES = [
    (["0", "1", "2"], "1", [1]), (["2", "x", "y"], "2", [0, 2]), (["1", "2", "3"], "1", [0, 1]), (["1", "2", "3"], "3", [2]),
    (["1", "2", "3"], "0", [0]), (["10", "11", "12"], "10", [0]), (["10", "11", "12"], "1", [1]), (["007", "a", "b"], "007", [0]),
    (["a", "02", "b"], "02", [1, 2]), (["a", "b", "c"], "00002", [2]), (["", "", ""], "2", [2]), (["", "", ""], "3", []), (["", "", ""], "", []),
    (["\u0663", "b", "c"], "\u0663", [0]), (["a", "b", "c"], "\u0662", []), (["a", "b", "c"], "-1", []),
]

ONE_CELL = exercise(2, (1, 0, [4, 0, 0, 0, 0, 6, 0, 0, 0, 0, 0]))

# What stands in exercise.csv and the sheet that comes from it.
TAKEN = [
    ("kind", exercise(0)),
    ("kind,name\n,,\n\n", exercise(0)),
    ("kind,dataa,combout\n1,a,b", ONE_CELL),
    ("combout,kind,dataa\nb,1,a\n", ONE_CELL),
    ("kind,dataa,combout\n combinational ,\ta , b\u00a0\n", ONE_CELL),
    (" KIND , DataA,COMBOUT\nCombinational,a,b\n", ONE_CELL),
    ('kind,dataa,combout\n1,a, "b" \n', ONE_CELL),
    ("kind,dataa,combout\n1,\"a\nb,c;d\",\"say \"\"hi\"\"\"\n", ONE_CELL),
    ("kind,dataa,combout\n1,5\" net,'b'\n", ONE_CELL),
    ("kind,dataa,datab\n1,5\" net,\"5\"\" net\"\n", exercise(1, (1, 0, [4, 4] + [0] * 9))),
    ("kind,dataa,datab\n1,\"GND\",\"/a\"\n", exercise(1, (1, 0, [1, 5] + [0] * 9))),
    ("kind;dataa;combout\n1;a,b;c,d\n", ONE_CELL),
    ("kind\tdataa\tcombout\n1\ta;b\tc,d\n", ONE_CELL),
    ('"kind";"dataa";"combout"\n"1";"a";"b;c"\n', ONE_CELL),
    ('"kind"\t"dataa"\t"combout"\n1\t"a\tb"\tc\n', ONE_CELL),
    ("kind;dataa;combout\n1;a;\"say \"\"; hi\"\"\"\n", ONE_CELL),
    # nothing but a name begins with / or is a constant
    ("kind,dataa,datab,datac,datad,cin\n1,Gnd,vcc,/GND,/ vcc,\n", exercise(0, (1, 0, [1, 2, 2, 1] + [0] * 7))),
    ("kind,dataa,datab,datac,datad\n1,a/b,/a/b,GND2,0\n", exercise(3, (1, 0, [4, 5, 6, 8] + [0] * 7))),
    ("kind,dataa,datab\n1,a,/ a\n", exercise(1, (1, 0, [4, 5] + [0] * 9))),
    ("kind,dataa,datab\n1,a,A\n", exercise(2, (1, 0, [4, 6] + [0] * 9))),
    # numbered by the ports' order, whatever the columns'
    ("regout,clk,kind,datain\na,b,2,c\n", exercise(3, (2, 0, [4, 6] + [0] * 5 + [8] + [0] * 3))),
    ("cout,combout,cin,datad,datac,datab,dataa,kind\na,b,c,d,e,f,g,1\n", exercise(7, (1, 0, [4, 6, 8, 10, 12, 14, 16, 0, 0, 0, 0]))),
    # rows that declare nets
    ("name,kind,dataa\nb,net,\na,NET,\n,1,a\n", exercise(2, (1, 0, [6] + [0] * 10))),
    ("name,kind,dataa\n,1,a\nb,net,\na,net,\n", exercise(2, (1, 0, [4] + [0] * 10))),
    ("name,kind,dataa\na,1,a\na,net,\n", exercise(1, (1, 0, [4] + [0] * 10))),
    # flags
    ("kind,sum_lutc_input\n1,cin\n1,DATAC\n1,\n2,datac\n", exercise(0, (1, 1, [0] * 11), (1, 0, [0] * 11), (1, 0, [0] * 11), (2, 0, [0] * 11))),
    # the most
    ("kind\n" + "2\n" * 512, exercise(0, *[(2, 0, [0] * 11)] * 512)),
    ("name,kind\n" + "".join("n%d,net\n" % n for n in range(1024)), exercise(1024)),
    # names of any sort
    ("kind,name\n1,é\n1,e\u0301\n1,GND\n1,/a\n1,net\n1,🙂\n1,a b\n1,A b\n", exercise(0, *[(1, 0, [0] * 11)] * 8)),
]

BARE = (1, 0, [0] * 11)             # a cell with no connection
DRIVES = (2, 0, [0] * 7 + [4, 0, 0, 0])     # a register that drives net 0

COUNTS = "13: the exercise has more than 1024 nets or more than 512 cells"
EXERCISE_LENGTH = "14: the length of the exercise is not that of so many cells"

# Exercise sheets, and how csv refuses them.
BAD_EXERCISES = [
    (LISTING_LXE[:8], "10: the exercise has under 9 bytes"), (b"lxe" + LISTING_LXE[3:], "11: the exercise does not begin with LXE"),
    (b"LXE\2\0" + LISTING_LXE[5:], "12: the version of the exercise is not 1"), (exercise(1025), COUNTS), (exercise(0, *[BARE] * 513), COUNTS),
    (LISTING_LXE[:9], EXERCISE_LENGTH), (LISTING_LXE + b"\0", EXERCISE_LENGTH), (LISTING_LXE + b"\0" * 100000, EXERCISE_LENGTH),
    (exercise(0, *[BARE] * 512) + b"\0", EXERCISE_LENGTH), (exercise(4, BARE, (1, 2, [0] * 11)), "15: a record breaks the layout (cell 1)"),
    (exercise(4, DRIVES, BARE, DRIVES), "16: an output drives a net that is driven already (cell 2)"),
]

ANSWER_LENGTH = "25: the length of the answer is not that of so many cells"

# Answer sheets beside the exercise of the listing.
BAD_ANSWERS = [
    (b"", "20: the answer has under 11 bytes"), (b"LXE" + LISTING_LXA[3:], "21: the answer does not begin with LXA"),
    (b"LXA\0\0" + LISTING_LXA[5:], "22: the version of the answer is not 1"), (answer(0, (1, 1, 1), (1, 1, 1)), "23: the apprentice is 0"),
    (answer(7, (1, 1, 1)), "24: the cell count of the answer differs from that of the exercise"), (LISTING_LXA[:-1], ANSWER_LENGTH),
    (LISTING_LXA + b"\0" * 100000, ANSWER_LENGTH), (answer(7, (1, 1, 1), (1, 1, 16)), "26: a place is out of range (cell 1)"),
]

SHORT = "70: the settings sheet has under 6 bytes"
WRONG_VERSION = "72: the version of the settings sheet is neither 1 nor 2"
ENTRIES = "73: the settings sheet has more than 8 entries"
SETTINGS_LENGTH = "74: the length of the settings sheet is not that of so many entries"

# Settings sheets, and how csv refuses them.
BAD_SETTINGS = [
    (b"", SHORT), (BOARD_LXT[:5], SHORT), (b"LXE" + BOARD_LXT[3:], "71: the settings sheet does not begin with LXT"),
    (settings(0, 0), WRONG_VERSION), (settings(3, 0), WRONG_VERSION), (b"LXT\1\1" + BOARD_LXT[5:], WRONG_VERSION), (settings(1, 0, *[1] * 9), ENTRIES),
    (b"LXT\2\0\11", ENTRIES), (b"LXT\2\0\0", SETTINGS_LENGTH), (b"LXT\2\0\0\0", SETTINGS_LENGTH), (BOARD_LXT[:-1], SETTINGS_LENGTH),
    (BOARD_LXT + b"\0", SETTINGS_LENGTH), (BOARD_LXT + b"\0" * 100000, SETTINGS_LENGTH), (settings(2, 0, *[31] * 8) + b"\0", SETTINGS_LENGTH),
    (settings(2, 0, 1, 32), "75: an entry of the settings sheet has a flag above the five roles"),
]


def as_bytes(files):
    return {name: data if isinstance(data, bytes) else data.encode() for name, data in files.items()}


def refused(place, files, name, lines):
    """write refuses these files with these lines, and every file stays."""
    place.fill(files)
    lines = ["%s%s%s" % (name, "" if line.startswith(":") else ", ", line) for line in lines]
    said = place.refusal(csv_sheets.write)
    assert said == lines, (files, said, lines)
    assert place.found() == as_bytes(files), files


def taken(place, files, exercise_lxe=None, answer_lxa=None, settings_lxt=None):
    """write makes these sheets, and nothing else is there."""
    place.fill(files)
    said = place.refusal(csv_sheets.write)
    assert said is None, (files, said)
    sheets = {"exercise.lxe": exercise_lxe, "answer.lxa": answer_lxa, "settings.lxt": settings_lxt}
    assert place.found() == {**as_bytes(files), **{name: sheet for name, sheet in sheets.items() if sheet is not None}}, (files, place.found())


def mistakes(place):
    old = {"exercise.lxe": b"old exercise", "answer.lxa": b"old answer", "settings.lxt": b"old settings"}
    for text, lines in EXERCISE_MISTAKES + EXERCISE_REFUSED:
        refused(place, {"exercise.csv": text}, "exercise.csv", lines)
        refused(place, {"exercise.csv": text, "answer.csv": PLACES, "settings.csv": BOARD, **old}, "exercise.csv", lines)
    for text, lines in ANSWER_MISTAKES:
        refused(place, {"exercise.csv": LISTING, "answer.csv": text}, "answer.csv", lines)
        refused(place, {"exercise.csv": LISTING, "answer.csv": text, "settings.csv": BOARD, **old}, "answer.csv", lines)
    for text, lines in SETTINGS_MISTAKES + SETTINGS_REFUSED:
        refused(place, {"settings.csv": text}, "settings.csv", lines)
        refused(place, {"exercise.csv": LISTING, "answer.csv": PLACES, "settings.csv": text, **old}, "settings.csv", lines)
    return 2 * len(EXERCISE_MISTAKES + EXERCISE_REFUSED + ANSWER_MISTAKES + SETTINGS_MISTAKES + SETTINGS_REFUSED)


def digit_names(place):
    for names, text, meant in DIGIT_NAMES:
        assert csv_sheets.Cells(names, [0, 0, 0]).found(text) == meant, (names, text)
    rows = "name,kind\n1,1\n0,1\nthree,1\n"
    places = "apprentice,1\ncell,x,y,le\n1,1,1,1\n0,1,1,2\nthree,1,1,3\n"
    refused(place, {"exercise.csv": rows, "answer.csv": places}, "answer.csv",
            ["line 3, column 1 (cell): '1' is the name of cell 0 and the number of cell 1 ('0')",
             "line 4, column 1 (cell): '0' is the name of cell 1 and the number of cell 0 ('1')",
             ": cell 0 ('1'), line 2 of exercise.csv, has no place", ": cell 1 ('0'), line 3 of exercise.csv, has no place"])
    return len(DIGIT_NAMES) + 1


def tables(place):
    for text, sheet in TAKEN:
        taken(place, {"exercise.csv": text}, sheet)
    for text, sheet in SETTINGS_TAKEN:
        taken(place, {"settings.csv": text}, settings_lxt=sheet)
    return len(TAKEN + SETTINGS_TAKEN)


def exported(rows, separator, newline, quotes, mark, tail):
    """A table as some spreadsheet exports it: with quotes around all fields or none, and some empty columns and rows at the end."""
    width = max(map(len, rows))
    rows = [row + [""] * (width - len(row) + tail) if tail else row for row in rows] + [[""] * width] * tail
    lines = [separator.join('"%s"' % field if quotes else field for field in row) for row in rows]
    return mark + newline.join(lines).encode() + (b"" if tail else newline.encode())


def exports(place):
    """The listing and a board as different programs and locales export them: always the same three sheets."""
    table = [line.split(",") for line in LISTING.splitlines()]
    full = [HEADINGS] + [[dict(zip(table[0], row)).get(heading, "") for heading in HEADINGS] for row in table[1:]]
    places, board = ([line.split(",") for line in text.splitlines()] for text in (PLACES, BOARD))
    styles = list(itertools.product(",;\t", ("\n", "\r\n", "\r"), (False, True), (b"", b"\xef\xbb\xbf"), (0, 3)))
    for style in styles:
        taken(place, {"exercise.csv": exported(full, *style), "answer.csv": exported(places, *style), "settings.csv": exported(board, *style)},
              LISTING_LXE, LISTING_LXA, BOARD_LXT)
    return len(styles)


def which_files(place):
    """What is read and written where a file is missing."""
    taken(place, {"exercise.csv": LISTING, "answer.csv": PLACES}, LISTING_LXE, LISTING_LXA)
    taken(place, {"exercise.csv": LISTING}, LISTING_LXE)
    # The answer of an exercise that has no CSV file: its cells by number, or by the names that csv gives.
    for cells in (("0", "1"), ("c0", "c1"), ("c0", "1")):
        text = "apprentice,7\ncell,x,y,le\n%s,2,1,0\n%s,2,1,0\n" % cells
        taken(place, {"exercise.lxe": LISTING_LXE, "answer.csv": text}, LISTING_LXE, LISTING_LXA)
    # Zeros before a number.
    text = PLACES.replace(",2,1,0", ",%s2,01,00" % ("0" * 30)).replace(",7", ",007")
    taken(place, {"exercise.csv": LISTING, "answer.csv": text}, LISTING_LXE, LISTING_LXA)
    # exercise.csv counts, not the sheet that is there.
    taken(place, {"exercise.csv": LISTING, "exercise.lxe": ONE_CELL, "answer.lxa": b"old", "answer.csv": PLACES}, LISTING_LXE, LISTING_LXA)
    place.fill({"exercise.csv": LISTING, "answer.lxa": b"old"})
    lines = csv_sheets.write(place.library, place.folder)
    assert lines == ["exercise.lxe: 2 cells, 4 nets", "answer.lxa: left as it is, there is no answer.csv"], lines
    assert place.found()["answer.lxa"] == b"old"
    place.fill({"exercise.csv": "kind,clk\n2,a", "answer.csv": "apprentice,1\ncell,x,y,le\n0,1,1,1"})
    lines = csv_sheets.write(place.library, place.folder)
    assert lines == ["exercise.lxe: 1 cell, 1 net", "answer.lxa: 1 place, apprentice 1"], lines
    # settings.csv by itself, and beside each of the others.
    by_number = PLACES.replace("state", "0").replace("logic", "1")
    made = ["exercise.lxe: 2 cells, 4 nets", "answer.lxa: 2 places, apprentice 7"]
    for files, lines in (({}, []), ({"exercise.lxe": b"old", "answer.lxa": b"old"}, []), ({"exercise.csv": LISTING}, made[:1]),
                         ({"exercise.lxe": LISTING_LXE, "answer.csv": by_number}, made[1:]), ({"exercise.csv": LISTING, "answer.csv": PLACES}, made)):
        place.fill({**files, "settings.csv": BOARD, "settings.lxt": b"old"})
        said = csv_sheets.write(place.library, place.folder)
        assert said == lines + ["settings.lxt: 2 entries, version 2, board 3"] and place.found()["settings.lxt"] == BOARD_LXT, (files, said)
    place.fill({"settings.csv": FIRST_ROWS + "0,x,,,,"})
    assert csv_sheets.write(place.library, place.folder) == ["settings.lxt: 1 entry, version 1, board 0"]
    # A settings sheet stays where there is no settings.csv.
    taken(place, {"exercise.csv": LISTING, "settings.lxt": b"old"}, LISTING_LXE)
    none = "there is neither exercise.csv nor answer.csv nor settings.csv in the folder"
    no_cells = "there is neither exercise.csv nor exercise.lxe in the folder, so answer.csv has no cells to place"
    wrong = [({}, none), ({"exercise.lxe": LISTING_LXE, "settings.lxt": BOARD_LXT}, none),
             ({"answer.csv": PLACES}, no_cells), ({"answer.csv": PLACES, "settings.csv": BOARD}, no_cells),
             ({"answer.csv": PLACES, "exercise.lxe": LISTING_LXE}, "answer.csv, line 3, column 1 (cell): there is no cell 'state'"),
             ({"answer.csv": "apprentice,7\ncell,x,y,le\n0,1,1,1\n", "exercise.lxe": LISTING_LXE}, "answer.csv: cell 1 ('c1') has no place"),
             ({"answer.csv": PLACES, "exercise.lxe": b""}, "exercise.lxe is refused with 10: the exercise has under 9 bytes")]
    for files, line in wrong:
        place.fill(files)
        said = place.refusal(csv_sheets.write)
        assert line in said and place.found() == as_bytes(files), (files, said)
    return 16 + len(wrong)


def back_to_csv(place):
    """csv: what it writes, what it does not replace, which sheets it refuses."""
    text = (",".join(HEADINGS) + "\nc0,register,,,,,,,,,n0,n1,,n2,,,,n3\nc1,combinational,,n3,,,,,n0,,,,,,,,,\n").encode()
    places = b"apprentice,7\ncell,x,y,le\nc0,2,1,0\nc1,2,1,0\n"
    sheets = {"exercise.lxe": LISTING_LXE, "answer.lxa": LISTING_LXA, "settings.lxt": BOARD_LXT}
    all_three = {"exercise.csv": text, "answer.csv": places, "settings.csv": BOARD.encode()}
    about = {"exercise.csv": "exercise.csv: 2 cells, 4 nets", "answer.csv": "answer.csv: 2 places, apprentice 7",
             "settings.csv": "settings.csv: 2 entries, version 2, board 3"}
    for count in range(4):
        for there in map(dict, itertools.combinations(all_three.items(), count)):
            place.fill({**sheets, **there})
            lines = csv_sheets.csv(place.library, place.folder)
            assert lines == [about[name] + "; it was there already" * (name in there) for name in all_three], lines
            assert place.found() == {**sheets, **all_three}
    # Some of the sheets.
    some = [("exercise",), ("exercise", "answer"), ("exercise", "settings"), ("settings",)]
    for names in some:
        mine = {name: sheet for name, sheet in sheets.items() if name.split(".")[0] in names}
        place.fill(mine)
        assert csv_sheets.csv(place.library, place.folder) == [about[name + ".csv"] for name in names]
        assert place.found() == {**mine, **{name + ".csv": all_three[name + ".csv"] for name in names}}
    place.fill({"settings.lxt": settings(1, 0, 0)})
    assert csv_sheets.csv(place.library, place.folder) == ["settings.csv: 1 entry, version 1, board 0"]
    assert place.found()["settings.csv"] == (FIRST_ROWS + "0,,,,,\n").encode()
    other = "%s is there already, with other contents, and is not replaced"
    wrong = [({**sheets, "exercise.csv": LISTING.encode()}, other % "exercise.csv"), ({**sheets, "answer.csv": places[:-1]}, other % "answer.csv"),
             ({**sheets, "exercise.csv": text, "answer.csv": places + b"\n"}, other % "answer.csv"),
             ({**sheets, "settings.csv": BOARD.encode().upper()}, other % "settings.csv"),
             ({"answer.lxa": LISTING_LXA}, "there is no exercise.lxe in the folder"),
             ({"answer.lxa": LISTING_LXA, "settings.lxt": BOARD_LXT}, "there is no exercise.lxe in the folder"),
             ({}, "there is neither exercise.lxe nor settings.lxt in the folder")]
    wrong += [({"exercise.lxe": sheet}, "exercise.lxe is refused with " + line) for sheet, line in BAD_EXERCISES]
    wrong += [({"exercise.lxe": LISTING_LXE, "answer.lxa": sheet}, "answer.lxa is refused with " + line) for sheet, line in BAD_ANSWERS]
    wrong += [({"exercise.lxe": LISTING_LXE, "settings.lxt": sheet}, "settings.lxt is refused with " + line) for sheet, line in BAD_SETTINGS]
    wrong += [({"settings.lxt": sheet}, "settings.lxt is refused with " + line) for sheet, line in BAD_SETTINGS]
    for files, line in wrong:
        place.fill(files)
        said = place.refusal(csv_sheets.csv)
        assert said == [line] and place.found() == files, (files, said)
    return 8 + len(some) + 1 + len(wrong)


def try_all(place):
    return mistakes(place) + digit_names(place) + tables(place) + exports(place) + which_files(place) + back_to_csv(place)
