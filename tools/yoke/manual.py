"""The texts of the help."""

LANGUAGE = """\
a source:
  variables                     # at most 64; a name, a level, a value
    depth = 0                   # public, since nothing else is said
    beds house = 40             # house: never seen on the board
  tree                          # 1 to 512 nodes; children are indented
    resort = 0
      north = 120
      south content house = 80  # its value is a house number
      office list house = 0     # its number of children is one
        safe house = 7          # that it exists is one, and so is all of it
  script                        # at most 1,024 records; blocks are indented
    first child
    depth := value
    right sibling
    if 100 < depth
      print depth
    else
      print 0

statements:
  NAME := EXPRESSION            give a variable a number
  print EXPRESSION              put a line on the public board
  print EXPRESSION for PARTIES  put a line on the board of these parties: who
                                is not among them may be shown nothing of it
  set EXPRESSION                give the node under the cursor a value
  if EXPRESSION, else           the lines below, further in; 0 means no
  if EXPRESSION and come back   the same; at the block's end the cursor is
                                where it was, at the level that it had
  while EXPRESSION              again and again until it is 0
  empty                         the only line of a block that has none
  root, up, first child, last child, left sibling, right sibling
                                move the cursor, which starts at the root
  new first child: EXPRESSION   also: new right sibling; before the colon
                                `content house`, `list house` or both, in
                                this order, to keep more from the public;
                                other parties as well, as `list alpina`
  remove first child            with all below it; also: remove right sibling
  cover                         make the cursor's place a house matter;
                                `cover alpina`: a matter of these parties
  nothing

expressions, with one operator at most:
  a number, a variable, value (of the node), children (how many it has)
  A + B, A - B, A = B, A < B, mean(A, B)

parties, where there is more than the house:
  parties house, alpina, buses  # the first line; at most eight, house first
  variables
    beds alpina = 40            # only alpina may see what depends on it
    seats alpina+buses = 9      # alpina and buses together

What the board says is public. Where it ends may depend on house numbers, too:
show a board only where the run has finished (tools/job probe --help).
"""

DESCRIPTIONS = {
    "assemble": """\
Turns a source into the bytes of a job. A mistake in the source is shown with
its line and column, and nothing is written. A job that can be written but that
the monitor would refuse is written, with a warning.

  tools/job assemble examples/depths.yoke -o depths.job
  tools/job assemble examples/depths.yoke -o - | target/bin/board
  tools/job assemble --tree house.yoke script.yoke -o night.job

With --tree the source has a script, and variables of its own if it likes; the
other file has the tree, and variables that come before those of the script.

  tools/job assemble --bare examples/season-1.yoke --tree examples/season.yoke

With --bare the source has a script and nothing else, and becomes the bare
section of a follow-on script. Its variables are those of TREE; without --tree
they are called v0 to v63, as `list --bare` calls them.
""",
    "list": """\
Shows a job as a source, with names v0, v1 .. and n0, n1 .. by index. Assembling
that source gives the same bytes. Of a job that the monitor would refuse it says
what is wrong and where.

  tools/job list depths.job
  tools/job list --bare season-1.section --tree examples/season.yoke

With --bare it shows the bare section of a follow-on script. That has no
variables and no tree; --tree says whose names it takes and how many variables
there are.
""",
    "clean": """\
Sets the bytes of a stored job that nobody reads to zero: the monitor refuses a
job with such a byte (ending 12). It says which bytes were not zero, and what
stood there; that goes to standard error where the job goes to standard output.
The cleaned job runs exactly as the old one did. A job that was refused before
there was ending 12 is refused by its old number, and nothing is written. The
program for this is clean, in target/bin or $CLEAN.

  tools/job clean stored.job cleaned.job
""",
    "arrange": """\
Lists the nodes of a stored job the way they hang: each is followed at once by
its whole subtree, children from left to right. The monitor refuses a job with
its nodes in another order (ending 13). It says which nodes have another number
now; that goes to standard error where the job goes to standard output. The
tree is the same, so the job runs exactly as the old one did. A job that was
refused before there was ending 13 is refused by its old number, and nothing is
written. The program for this is arrange, in target/bin or $ARRANGE.

  tools/job arrange stored.job arranged.job
""",
    "picture": """\
Draws the tree of a source or a job: in characters, or as SVG. Parts that are
not public are hatched and labelled with their parties in the SVG, and named in
brackets in the text. The text
leaves out the middle of a long run of siblings, and of a long chain of only
children; --all shows them. A large tree becomes an outline in the SVG.

  tools/job picture examples/depths.yoke
  tools/job picture examples/depths.yoke --svg depths.svg
""",
    "explain": """\
Shows the help page of an ending. Without a number it lists the endings.

  tools/job explain 21
""",
    "run": """\
Runs a source or a job and shows the outcome with the names of the source. For
a stop it shows the line, the rule, the levels that stood there and what can be
done. It has the board runner's limits and the program inspect; with --budget,
--places or --lines it has these and the program replay. It looks for both in
target/bin, or takes $INSPECT and $REPLAY.

  tools/job run examples/depths.yoke
  tools/job run --tree house.yoke script.yoke
  tools/job run examples/depths.yoke --trace --budget 10

A row of --trace has the step, the line and record, the statement, the node
under the cursor, the context and the cursor level before the step, and what
the step changed.

  tools/job run examples/season.yoke examples/season-1.yoke

Scripts behind the source are follow-on scripts: each runs over the variables
and the tree that the one before it left, from the root, with a budget and a
board of its own. A file is a source with a script and nothing else, or a bare
section of bytes. A script that is stopped leaves what it did; one that is
refused changes nothing; the next goes on. A node that script 2 adds in line 4
is called new2_4. The program for this is history, in target/bin or $HISTORY.

  tools/job run examples/season.yoke examples/season-1.yoke --save monday.job

--save writes the variables and the tree that stand in the end as a job without
a script, after a stop, too; the program for this is history. The file has all
house numbers. `list` shows it, `run` goes on with it: the job runs nothing, and
scripts behind it find what stood.

  tools/job run examples/hotels.yoke --reader alpina

With --reader it shows only the lines that these parties see: those whose
readers are all among them. That is what the house hands to alpina.

It shows house numbers: it is for whoever owns them. The public sees the board.
""",
    "rounds": """\
Runs sources and jobs in turns, each of 5,000 steps, and says who ends in which
turn. They come in the order of the call, before the first turn: eight find a
place, and a ninth is refused with 15. Each has the board runner's limits, or
those that are given, and ends as it does by itself. The program for this is
rounds, in target/bin or $ROUNDS.

  tools/job rounds examples/day.yoke examples/buses.yoke examples/guests.yoke

Who ends when may depend on house numbers: it is for the house.
""",
    "probe": """\
Runs a source or a job many times, each time with other house numbers and other
house nodes, all else the same. It says which different boards came, how long
they are, and the line whose stop made the difference. Exit status 1 if there
is more than one board.

  tools/job probe examples/guests.yoke
  tools/job probe script.yoke --tree house.yoke --count 10000 --seed 7

Where a board ends may depend on house numbers. What stands on it never does: of
two boards one is a beginning of the other, and finished runs leave the same
board. That is proved. But a stop under a house guard shows. This script leaves
a board of 40 lines for 40 beds and of 7 for 7:

  variables
    c = 0
    beds house = 40
  tree
    hotel = 0
  script
    while c < 100
      c := c + 1
      print c
      if c = beds
        up

So a board of n lines at most may tell which of n + 1 cases there is: with the
board runner's 256 lines some 8 bits. To close this, show a board only where
the run has finished; then there is one board or none.
""",
}

STATUS = """\
exit status: 0 all is well; 1 a job or script is refused or stopped, or probe
finds more than one board; 2 a mistake in the source or the call, or what cannot
be read, written or run. An interrupt ends the program by its signal.
"""
