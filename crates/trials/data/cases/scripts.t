Scripts that make refuses, by the line at which they are. No file is written then.
  $ put script
  > key 1 5
  > key 1 5
  >
  $ tufcheck make script made
  ! tufcheck: script 2
  [3]
  $ put script
  > key 1 6
  >
  $ tufcheck make script made
  ! tufcheck: script 1
  [3]
  $ put script
  > key 1 5
  >
  > # a note
  > write root 1 1
  >
  $ tufcheck make script made
  ! tufcheck: script 4
  [3]

A width is the last word of a key's line, if there is one.
  $ put script
  > key 1 5 4
  > key 2 5 8
  > key 3 5 2
  >
  $ tufcheck make script made
  ! tufcheck: script 3
  [3]
  $ put script
  > key 1 5 8 8
  >
  $ tufcheck make script made
  ! tufcheck: script 1
  [3]

The last line may lack its line feed.
  $ put script
  > key 1 6
  $ tufcheck make script made
  ! tufcheck: script 1
  [3]

A key that isn't there, after lines that can be followed.
  $ put script
  > key 1 5
  > key 2 5
  > key 3 5
  > key 4 5
  > top root 1 1
  > top timestamp 1 2
  > top snapshot 1 3
  > top targets 1 4
  > target targets abc.txt 616263 sha256
  > write root 1 9
  > write targets 1 4
  > write snapshot 1 3
  > write timestamp 1 2
  >
  $ tufcheck make script made
  ! tufcheck: script 10
  [3]
  $ has made
  [1]

A script that can't be read, and one that isn't UTF-8.
  $ tufcheck make none made
  ! tufcheck: input
  [4]
  $ put script
  > key 1 5
  > top targets 1 1
  > target targets x 2320ff0a sha256
  $ tufcheck make script made
  $ tufcheck make made/targets/x more
  ! tufcheck: input
  [4]
  $ has more
  [1]

A folder that can't be written.
  $ tufcheck make script script
  ! tufcheck: output
  [4]

A role has bins or delegations, and not both. The line that comes second can't be followed.
  $ put script
  > key 1 5
  > top targets 1 1
  > succinct targets 1 1 8 bin
  > delegate targets a 1 1 go paths *
  >
  $ tufcheck make script made
  ! tufcheck: script 4
  [3]
  $ put script
  > key 1 5
  > top targets 1 1
  > delegate targets a 1 1 go paths *
  > succinct a 1 1 8 bin
  > succinct targets 1 1 8 bin
  >
  $ tufcheck make script made
  ! tufcheck: script 5
  [3]

No bits, too many, a prefix with a slash, and a role that isn't there.
  $ put script
  > key 1 5
  > top targets 1 1
  > succinct targets 1 1 0 bin
  >
  $ tufcheck make script made
  ! tufcheck: script 3
  [3]
  $ put script
  > key 1 5
  > top targets 1 1
  > succinct targets 1 1 33 bin
  >
  $ tufcheck make script made
  ! tufcheck: script 3
  [3]
  $ put script
  > key 1 5
  > top targets 1 1
  > succinct targets 1 1 8 a/b
  >
  $ tufcheck make script made
  ! tufcheck: script 3
  [3]
  $ put script
  > key 1 5
  > succinct targets 1 1 8 bin
  >
  $ tufcheck make script made
  ! tufcheck: script 2
  [3]

Names that no bin has: another prefix, too few digits, too many, capitals, no digits, and a number that is too great.
  $ put script
  > key 1 5
  > top targets 1 1
  > succinct targets 1 1 9 bin
  > write bin-000 1 1
  > write bin-1ff 1 1
  > write bon-000 1 1
  >
  $ tufcheck make script made
  ! tufcheck: script 6
  [3]
  $ put script
  > key 1 5
  > top targets 1 1
  > succinct targets 1 1 9 bin
  > write bin-00 1 1
  >
  $ tufcheck make script made
  ! tufcheck: script 4
  [3]
  $ put script
  > key 1 5
  > top targets 1 1
  > succinct targets 1 1 9 bin
  > write bin-0000 1 1
  >
  $ tufcheck make script made
  ! tufcheck: script 4
  [3]
  $ put script
  > key 1 5
  > top targets 1 1
  > succinct targets 1 1 9 bin
  > write bin-0FF 1 1
  >
  $ tufcheck make script made
  ! tufcheck: script 4
  [3]
  $ put script
  > key 1 5
  > top targets 1 1
  > succinct targets 1 1 9 bin
  > write bin-0-0 1 1
  >
  $ tufcheck make script made
  ! tufcheck: script 4
  [3]
  $ put script
  > key 1 5
  > top targets 1 1
  > succinct targets 1 1 9 bin
  > write bin-200 1 1
  >
  $ tufcheck make script made
  ! tufcheck: script 4
  [3]
  $ put script
  > key 1 5
  > top targets 1 1
  > succinct targets 1 1 9 bin
  > write bin 1 1
  >
  $ tufcheck make script made
  ! tufcheck: script 4
  [3]
