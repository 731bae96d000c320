Roots that follow the first one.

An expired root on the way.
  $ make
  > @wide
  > write root 1 1
  > expires 2025-01-01T00:00:00Z
  > write root 2 1
  > expires 2030-01-01T00:00:00Z
  > write root 3 1
  > @files
  $ init old
  root 1
  $ verify old new
  root 3
  end ready
  $ state right root=metadata/3.root.json snapshot=metadata/snapshot.json targets=metadata/targets.json timestamp=metadata/timestamp.json
  $ same new right

An expired last root.
  $ make
  > @wide
  > write root 1 1
  > expires 2025-01-01T00:00:00Z
  > write root 2 1
  > write root 3 1
  > expires 2030-01-01T00:00:00Z
  $ init old
  root 1
  $ verify old new
  root 3
  end root Expired
  [2]
  $ state right root=metadata/3.root.json
  $ same new right

Signed by the new keys only.
  $ make
  > @one
  > write root 1 1
  > key 5 5 4
  > top root 1 5
  > write root 2 5
  $ init old
  root 1
  $ verify old new
  root 1
  end root Unsigned
  [2]
  $ keeps new
  root

Signed by the old keys only.
  $ make
  > @one
  > write root 1 1
  > key 5 5 4
  > top root 1 5
  > write root 2 1
  $ init old
  root 1
  $ verify old new
  root 1
  end root Unsigned
  [2]
  $ keeps new
  root

Signed by old and new keys.
  $ make
  > @keys
  > write root 1 1
  > key 5 5 4
  > top root 1 5
  > write root 2 1,5
  > @files
  $ init old
  root 1
  $ verify old new
  root 2
  end ready
  $ keeps new
  root snapshot targets timestamp

A gap in the chain.
  $ make
  > @keys
  > write root 1 1
  > write root 3 1
  > @files
  $ init old
  root 1
  $ verify old new
  root 1
  end ready
  $ keeps new
  root snapshot targets timestamp

A gap after a root.
  $ make
  > @keys
  > write root 1 1
  > write root 2 1
  > write root 4 1
  > @files
  $ init old
  root 1
  $ verify old new
  root 2
  end ready
  $ keeps new
  root snapshot targets timestamp

An unsigned root on the way.
  $ make
  > @one
  > key 2 5 4
  > write root 1 1
  > write root 2 1
  > write root 3 2
  > write root 4 1
  $ init old
  root 1
  $ verify old new
  root 2
  end root Unsigned
  [2]
  $ keeps new
  root

Another timestamp key.
  $ make
  > @keys
  > write root 1 1
  > key 5 5 4
  > top timestamp 1 5
  > write root 2 1
  > top timestamp 1 2
  > @files
  $ init old
  root 1
  $ verify old new
  root 2
  end timestamp Unsigned
  [2]
  $ keeps new
  root

A root that three of five keys sign for, and a second one with three of them and three others, and its signers: both
thresholds are to be met.

Signed by 1,5,6.
  $ make
  > @one
  > key 5 5 4
  > key 6 5 4
  > key 7 5 4
  > key 8 5 4
  > key 9 5 4
  > key 10 5 4
  > key 11 5 4
  > top root 3 1,5,6,7,8
  > write root 1 1
  > top root 3 1,5,9,10,11
  > write root 2 1,5,6
  $ init old
  root 1
  $ verify old new
  root 1
  end root Unsigned
  [2]

Signed by 9,10,1.
  $ make
  > @one
  > key 5 5 4
  > key 6 5 4
  > key 7 5 4
  > key 8 5 4
  > key 9 5 4
  > key 10 5 4
  > key 11 5 4
  > top root 3 1,5,6,7,8
  > write root 1 1
  > top root 3 1,5,9,10,11
  > write root 2 9,10,1
  $ init old
  root 1
  $ verify old new
  root 1
  end root Unsigned
  [2]

Signed by 1,5,9,10,11.
  $ make
  > @one
  > key 5 5 4
  > key 6 5 4
  > key 7 5 4
  > key 8 5 4
  > key 9 5 4
  > key 10 5 4
  > key 11 5 4
  > top root 3 1,5,6,7,8
  > write root 1 1
  > top root 3 1,5,9,10,11
  > write root 2 1,5,9,10,11
  $ init old
  root 1
  $ verify old new
  root 1
  end root Unsigned
  [2]

Signed by 1,5,6,9.
  $ make
  > @keys
  > key 5 5 4
  > key 6 5 4
  > key 7 5 4
  > key 8 5 4
  > key 9 5 4
  > key 10 5 4
  > key 11 5 4
  > top root 3 1,5,6,7,8
  > write root 1 1
  > top root 3 1,5,9,10,11
  > write root 2 1,5,6,9
  > @files
  $ init old
  root 1
  $ verify old new
  root 2
  end ready

Signed by 9,6,5,1.
  $ make
  > @keys
  > key 5 5 4
  > key 6 5 4
  > key 7 5 4
  > key 8 5 4
  > key 9 5 4
  > key 10 5 4
  > key 11 5 4
  > top root 3 1,5,6,7,8
  > write root 1 1
  > top root 3 1,5,9,10,11
  > write root 2 9,6,5,1
  > @files
  $ init old
  root 1
  $ verify old new
  root 2
  end ready

Version 3 stands in the place of version 2, signed by its key.
  $ make
  > @one
  > write root 1 1
  > write root 3 1
  $ copy metadata/3.root.json metadata/2.root.json
  $ init old
  root 1
  $ verify old new
  root 1
  end root VersionWrong
  [2]

Version 3 stands in the place of version 2, signed by another key.
  $ make
  > @one
  > key 2 5 4
  > write root 1 1
  > write root 3 2
  $ copy metadata/3.root.json metadata/2.root.json
  $ init old
  root 1
  $ verify old new
  root 1
  end root Unsigned
  [2]

The greatest version has no successor.
  $ make
  > @keys
  > write root 9223372036854775807 1
  > @files
  $ tufcheck init metadata/9223372036854775807.root.json --out old
  root 9223372036854775807
  $ verify old new
  root 9223372036854775807
  end ready
