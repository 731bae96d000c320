Lines that make refuses, behind the two lines of before.script, or of bare.script where no key is needed: the script is
refused at its third line.

Unknown lines, and spaces.
  $ make
  > @bare
  > cake 2 5
  ! tufcheck: script 3
  [3]
  $ make
  > @bare
  > Key 2 5
  ! tufcheck: script 3
  [3]
  $ make
  > @bare
  >  key 2 5
  ! tufcheck: script 3
  [3]
  $ make
  > @bare
  > key 2 5 
  ! tufcheck: script 3
  [3]
  $ make
  > @bare
  > key  2 5
  ! tufcheck: script 3
  [3]
  $ make
  > @bare
  > key	2 5
  ! tufcheck: script 3
  [3]
  $ make
  > @bare
  >  
  ! tufcheck: script 3
  [3]
  $ make
  > @bare
  >  # no comment
  ! tufcheck: script 3
  [3]

Keys.
  $ make
  > @bare
  > key
  ! tufcheck: script 3
  [3]
  $ make
  > @bare
  > key 2
  ! tufcheck: script 3
  [3]
  $ make
  > @bare
  > key 2 5 5
  ! tufcheck: script 3
  [3]
  $ make
  > @bare
  > key 256 5
  ! tufcheck: script 3
  [3]
  $ make
  > @bare
  > key -2 5
  ! tufcheck: script 3
  [3]
  $ make
  > @bare
  > key +2 5
  ! tufcheck: script 3
  [3]
  $ make
  > @bare
  > key two 5
  ! tufcheck: script 3
  [3]
  $ make
  > @bare
  > key - 5
  ! tufcheck: script 3
  [3]
  $ make
  > @bare
  > key 2 6
  ! tufcheck: script 3
  [3]
  $ make
  > @bare
  > key 2 05
  ! tufcheck: script 3
  [3]
  $ make
  > @before
  > key 1 5
  ! tufcheck: script 3
  [3]
  $ make
  > @before
  > key 1 10
  ! tufcheck: script 3
  [3]

Choices, and keys of top-level roles.
  $ make
  > @bare
  > consistent
  ! tufcheck: script 3
  [3]
  $ make
  > @bare
  > consistent maybe
  ! tufcheck: script 3
  [3]
  $ make
  > @bare
  > consistent yes no
  ! tufcheck: script 3
  [3]
  $ make
  > @bare
  > expires
  ! tufcheck: script 3
  [3]
  $ make
  > @bare
  > expires 
  ! tufcheck: script 3
  [3]
  $ make
  > @bare
  > expires 2030-01-01T00:00:00Z now
  ! tufcheck: script 3
  [3]
  $ make
  > @before
  > top mirrors 1 1
  ! tufcheck: script 3
  [3]
  $ make
  > @before
  > top root 0 1
  ! tufcheck: script 3
  [3]
  $ make
  > @before
  > top root -1 1
  ! tufcheck: script 3
  [3]
  $ make
  > @before
  > top root one 1
  ! tufcheck: script 3
  [3]
  $ make
  > @before
  > top root 9223372036854775808 1
  ! tufcheck: script 3
  [3]
  $ make
  > @before
  > top root 18446744073709551617 1
  ! tufcheck: script 3
  [3]
  $ make
  > @before
  > top root 1
  ! tufcheck: script 3
  [3]
  $ make
  > @before
  > top root 1 2
  ! tufcheck: script 3
  [3]
  $ make
  > @before
  > top root 1 1,2
  ! tufcheck: script 3
  [3]
  $ make
  > @before
  > top root 1 1,
  ! tufcheck: script 3
  [3]
  $ make
  > @before
  > top root 1 -,1
  ! tufcheck: script 3
  [3]
  $ make
  > @before
  > top root 1 1 1
  ! tufcheck: script 3
  [3]

Targets.
  $ make
  > @bare
  > target one a 61 sha256
  ! tufcheck: script 3
  [3]
  $ make
  > @bare
  > target root a 61 sha256
  ! tufcheck: script 3
  [3]
  $ make
  > @bare
  > target targets a 61
  ! tufcheck: script 3
  [3]
  $ make
  > @bare
  > target targets a 6 sha256
  ! tufcheck: script 3
  [3]
  $ make
  > @bare
  > target targets a 6g sha256
  ! tufcheck: script 3
  [3]
  $ make
  > @bare
  > target targets a 0x61 sha256
  ! tufcheck: script 3
  [3]
  $ make
  > @bare
  > target targets a 61 md5
  ! tufcheck: script 3
  [3]
  $ make
  > @bare
  > target targets a 61 sha256 sha512
  ! tufcheck: script 3
  [3]
  $ make
  > @bare
  > target targets  61 sha256
  ! tufcheck: script 3
  [3]
  $ make
  > @bare
  > target targets /a 61 sha256
  ! tufcheck: script 3
  [3]
  $ make
  > @bare
  > target targets a/ 61 sha256
  ! tufcheck: script 3
  [3]
  $ make
  > @bare
  > target targets a//b 61 sha256
  ! tufcheck: script 3
  [3]
  $ make
  > @bare
  > target targets . 61 sha256
  ! tufcheck: script 3
  [3]
  $ make
  > @bare
  > target targets a/./b 61 sha256
  ! tufcheck: script 3
  [3]
  $ make
  > @bare
  > target targets ../a 61 sha256
  ! tufcheck: script 3
  [3]
  $ make
  > @bare
  > target targets a/.. 61 sha256
  ! tufcheck: script 3
  [3]

Delegations, and roles that are forgotten.
  $ make
  > @before
  > delegate one two 1 1 go paths *
  ! tufcheck: script 3
  [3]
  $ make
  > @before
  > delegate root two 1 1 go paths *
  ! tufcheck: script 3
  [3]
  $ make
  > @before
  > delegate targets  1 1 go paths *
  ! tufcheck: script 3
  [3]
  $ make
  > @before
  > delegate targets one/two 1 1 go paths *
  ! tufcheck: script 3
  [3]
  $ make
  > @before
  > delegate targets one 0 1 go paths *
  ! tufcheck: script 3
  [3]
  $ make
  > @before
  > delegate targets one 1 2 go paths *
  ! tufcheck: script 3
  [3]
  $ make
  > @before
  > delegate targets one 1 1 on paths *
  ! tufcheck: script 3
  [3]
  $ make
  > @before
  > delegate targets one 1 1 go path *
  ! tufcheck: script 3
  [3]
  $ make
  > @before
  > delegate targets one 1 1 go paths
  ! tufcheck: script 3
  [3]
  $ make
  > @before
  > delegate targets one 1 1 go paths a b
  ! tufcheck: script 3
  [3]
  $ make
  > @bare
  > forget
  ! tufcheck: script 3
  [3]
  $ make
  > @bare
  > forget one
  ! tufcheck: script 3
  [3]
  $ make
  > @bare
  > forget root
  ! tufcheck: script 3
  [3]
  $ make
  > @bare
  > forget one/two
  ! tufcheck: script 3
  [3]

Files that are written.
  $ make
  > @before
  > write root 1 1
  ! tufcheck: script 3
  [3]
  $ make
  > @before
  > write timestamp 1 1
  ! tufcheck: script 3
  [3]
  $ make
  > @before
  > write snapshot 1 1
  ! tufcheck: script 3
  [3]
  $ make
  > @before
  > write one 1 1
  ! tufcheck: script 3
  [3]
  $ make
  > @before
  > write one/two 1 1
  ! tufcheck: script 3
  [3]
  $ make
  > @before
  > write targets 0 1
  ! tufcheck: script 3
  [3]
  $ make
  > @before
  > write targets 9223372036854775808 1
  ! tufcheck: script 3
  [3]
  $ make
  > @before
  > write targets 1 2
  ! tufcheck: script 3
  [3]
  $ make
  > @before
  > write targets 1 1,2
  ! tufcheck: script 3
  [3]
  $ make
  > @before
  > write targets 1
  ! tufcheck: script 3
  [3]
  $ make
  > @before
  > write targets 1 1 1
  ! tufcheck: script 3
  [3]

A carriage return. The script is the file of a target.
  $ make
  > @before
  > target targets x 6b6579203120350a746f702074617267657473203120310a6b6579203220350d0a sha256
  $ tufcheck make targets/x more
  ! tufcheck: script 3
  [3]

Lines before their time, comments, and empty lines.
  $ make
  > key 1 5
  > top timestamp 1 1
  > write timestamp 1 1
  ! tufcheck: script 3
  [3]
  $ make
  > target targets a 61 sha256
  ! tufcheck: script 1
  [3]
  $ make
  >
  >
  > delegate targets one 1 - go paths *
  ! tufcheck: script 3
  [3]
  $ make
  > # none
  > write targets 1 -
  ! tufcheck: script 2
  [3]
  $ make
  > top targets 1 -
  > delegate targets one 1 - go paths *
  > top root 1 -
  > write root 1 -
  ! tufcheck: script 4
  [3]

A key of height 5 signs 32 times.
  $ make
  > @before
  > @1..32 write targets 1 1
  $ has metadata/targets.json
  $ make
  > @before
  > @1..33 write targets 1 1
  ! tufcheck: script 35
  [3]
