The same, where the second repository has other keys of timestamp or snapshot: the trusted timestamp and snapshot are
dropped, and lower versions are accepted. Without another key each of them is refused (rollback.t): of the timestamp, of the
snapshot that it lists, and of the targets file that the snapshot lists.

A rotated timestamp key: lower versions of all three are accepted.
  $ make
  > @keys
  > write root 1 1
  > write targets 3 4
  > write snapshot 5 3
  > write timestamp 9 2
  $ init one
  root 1
  $ verify one two
  root 1
  end ready
  $ make
  > @keys
  > key 5 5 4
  > top timestamp 1 5
  > write root 2 1
  > write targets 2 4
  > write snapshot 4 3
  > write timestamp 8 5
  $ verify two three
  root 2
  end ready
  $ state right root=metadata/2.root.json snapshot=metadata/snapshot.json targets=metadata/targets.json timestamp=metadata/timestamp.json
  $ same three right

A snapshot key changed and changed back: lower versions of all three are accepted.
  $ make
  > @keys
  > write root 1 1
  > write targets 3 4
  > write snapshot 5 3
  > write timestamp 9 2
  $ init one
  root 1
  $ verify one two
  root 1
  end ready
  $ make
  > @keys
  > key 5 5 4
  > top snapshot 1 5
  > write root 2 1
  > top snapshot 1 3
  > write root 3 1
  > write targets 2 4
  > write snapshot 4 3
  > write timestamp 8 2
  $ verify two three
  root 3
  end ready
  $ state right root=metadata/3.root.json snapshot=metadata/snapshot.json targets=metadata/targets.json timestamp=metadata/timestamp.json
  $ same three right

The same of a timestamp key.
  $ make
  > @keys
  > write root 1 1
  > write targets 3 4
  > write snapshot 5 3
  > write timestamp 9 2
  $ init one
  root 1
  $ verify one two
  root 1
  end ready
  $ make
  > @keys
  > key 5 5 4
  > top timestamp 1 5
  > write root 2 1
  > top timestamp 1 2
  > write root 3 1
  > write targets 2 4
  > write snapshot 4 3
  > write timestamp 8 2
  $ verify two three
  root 3
  end ready
  $ state right root=metadata/3.root.json snapshot=metadata/snapshot.json targets=metadata/targets.json timestamp=metadata/timestamp.json
  $ same three right

Keys of W4 in place of keys of W8 in all roles. The root is signed by both root keys, and lower versions of all three are accepted.
  $ make
  > key 1 5 8
  > key 2 5 8
  > key 3 5 8
  > key 4 5 8
  > top root 1 1
  > top timestamp 1 2
  > top snapshot 1 3
  > top targets 1 4
  > write root 1 1
  > write targets 3 4
  > write snapshot 5 3
  > write timestamp 9 2
  $ init one
  root 1
  $ verify one two
  root 1
  end ready
  $ make
  > key 1 5 8
  > key 5 5 4
  > key 6 5 4
  > key 7 5 4
  > key 8 10 4
  > top root 1 5
  > top timestamp 1 6
  > top snapshot 1 7
  > top targets 1 8
  > write root 2 1,5
  > write targets 2 8
  > write snapshot 4 7
  > write timestamp 8 6
  $ verify two three
  root 2
  end ready
  $ state right root=metadata/2.root.json snapshot=metadata/snapshot.json targets=metadata/targets.json timestamp=metadata/timestamp.json
  $ same three right

Rotation after a fast forward.
  $ make
  > @keys
  > write root 1 1
  > write targets 1 4
  > write snapshot 1 3
  > write timestamp 9223372036854775807 2
  $ init one
  root 1
  $ verify one two
  root 1
  end ready
  $ make
  > @keys
  > key 5 5 4
  > top timestamp 1 5
  > write root 2 1
  > write targets 1 4
  > write snapshot 1 3
  > write timestamp 1 5
  $ verify two three
  root 2
  end ready
  $ keeps three
  root snapshot targets timestamp

Rotation and then an unsigned root. The new state has the last root that is signed, and the old targets file.
  $ make
  > @wide
  > write root 1 1
  > write targets 1 4
  > write snapshot 1 3
  > write timestamp 1 2
  $ init one
  root 1
  $ verify one two
  root 1
  end ready
  $ copy metadata/targets.json before
  $ make
  > @wide
  > key 5 5
  > top timestamp 1 5
  > write root 2 1
  > write root 3 2
  > write targets 2 4
  > write snapshot 2 3
  > write timestamp 2 5
  $ verify two three
  root 2
  end root Unsigned
  [2]
  $ state right root=metadata/2.root.json targets=before
  $ same three right

The same ids in another order, with another threshold.
  $ make
  > @keys
  > key 5 5 4
  > top timestamp 1 2,5
  > write root 1 1
  > write targets 1 4
  > write snapshot 1 3
  > write timestamp 9 2
  $ init one
  root 1
  $ verify one two
  root 1
  end ready
  $ make
  > @keys
  > key 5 5 4
  > top timestamp 2 5,2,5
  > write root 2 1
  > write targets 1 4
  > write snapshot 1 3
  > write timestamp 8 2,5
  $ verify two three
  root 2
  end timestamp Rollback
  [2]
  $ keeps three
  root snapshot targets timestamp

A key that is added is another set of keys, too.
  $ make
  > @keys
  > write root 1 1
  > write targets 1 4
  > write snapshot 1 3
  > write timestamp 9 2
  $ init one
  root 1
  $ verify one two
  root 1
  end ready
  $ make
  > @keys
  > key 5 5 4
  > top timestamp 1 2,5
  > write root 2 1
  > write targets 1 4
  > write snapshot 1 3
  > write timestamp 1 2
  $ verify two three
  root 2
  end ready
  $ state right root=metadata/2.root.json snapshot=metadata/snapshot.json targets=metadata/targets.json timestamp=metadata/timestamp.json
  $ same three right
