The trusted state is shown: a line for each trusted file, with its version and when it expires.

A first root alone.
  $ make
  > @keys
  > target targets abc.txt 616263 sha256
  > expires 2028-02-29T12:34:56Z
  > write root 1 1
  > expires 2031-02-03T04:05:06Z
  > write targets 7 4
  > expires 2030-12-31T00:00:01Z
  > write snapshot 12 3
  > expires 9999-12-31T23:59:59Z
  > write timestamp 9223372036854775807 2
  $ init one
  root 1
  $ tufcheck show one
  root 1 2028-02-29T12:34:56Z

All four files. Nothing is stored.
  $ verify one two abc.txt
  root 1
  end ready
  ok "abc.txt" 3 "targets"
  $ copy two before
  $ tufcheck show two
  root 1 2028-02-29T12:34:56Z
  timestamp 9223372036854775807 9999-12-31T23:59:59Z
  snapshot 12 2030-12-31T00:00:01Z
  targets 7 2031-02-03T04:05:06Z
  $ same two before

A file that expires at the moment of --before doesn't expire before it.
  $ tufcheck show one --before 2028-02-29T12:34:56Z
  root 1 2028-02-29T12:34:56Z
  $ tufcheck show one --before 2028-02-29T12:34:57Z
  root 1 2028-02-29T12:34:56Z
  [1]
  $ tufcheck show two --before 2028-02-29T12:34:56Z
  root 1 2028-02-29T12:34:56Z
  timestamp 9223372036854775807 9999-12-31T23:59:59Z
  snapshot 12 2030-12-31T00:00:01Z
  targets 7 2031-02-03T04:05:06Z
  $ tufcheck show --before 2028-03-01T00:00:00Z two
  root 1 2028-02-29T12:34:56Z
  timestamp 9223372036854775807 9999-12-31T23:59:59Z
  snapshot 12 2030-12-31T00:00:01Z
  targets 7 2031-02-03T04:05:06Z
  [1]
  $ same two before

Each of the other three files counts alone. The moments are the ends of a February, a year and a leap year.
  $ make
  > @keys
  > target targets abc.txt 616263 sha256
  > expires 2100-03-01T00:00:00Z
  > write root 1 1
  > write targets 1 4
  > write snapshot 1 3
  > expires 2027-02-28T23:59:59Z
  > write timestamp 1 2
  $ init one
  root 1
  $ verify one two
  root 1
  end ready
  $ tufcheck show two --before 2027-02-28T23:59:59Z
  root 1 2100-03-01T00:00:00Z
  timestamp 1 2027-02-28T23:59:59Z
  snapshot 1 2100-03-01T00:00:00Z
  targets 1 2100-03-01T00:00:00Z
  $ tufcheck show two --before 2027-03-01T00:00:00Z
  root 1 2100-03-01T00:00:00Z
  timestamp 1 2027-02-28T23:59:59Z
  snapshot 1 2100-03-01T00:00:00Z
  targets 1 2100-03-01T00:00:00Z
  [1]
  $ make
  > @keys
  > target targets abc.txt 616263 sha256
  > expires 2100-03-01T00:00:00Z
  > write root 1 1
  > write targets 1 4
  > expires 2026-12-31T23:59:59Z
  > write snapshot 1 3
  > expires 2100-03-01T00:00:00Z
  > write timestamp 1 2
  $ init one
  root 1
  $ verify one two
  root 1
  end ready
  $ tufcheck show two --before 2027-01-01T00:00:00Z
  root 1 2100-03-01T00:00:00Z
  timestamp 1 2100-03-01T00:00:00Z
  snapshot 1 2026-12-31T23:59:59Z
  targets 1 2100-03-01T00:00:00Z
  [1]
  $ make
  > @keys
  > target targets abc.txt 616263 sha256
  > expires 2100-03-01T00:00:00Z
  > write root 1 1
  > expires 2028-12-31T23:59:59Z
  > write targets 1 4
  > expires 2100-03-01T00:00:00Z
  > write snapshot 1 3
  > write timestamp 1 2
  $ init one
  root 1
  $ verify one two
  root 1
  end ready
  $ tufcheck show two --before 2029-01-01T00:00:00Z
  root 1 2100-03-01T00:00:00Z
  timestamp 1 2100-03-01T00:00:00Z
  snapshot 1 2100-03-01T00:00:00Z
  targets 1 2028-12-31T23:59:59Z
  [1]

The first moment that a text can have, the last one before 1970, and days that only some years have.
  $ make
  > @keys
  > expires 0000-01-01T00:00:00Z
  > write root 1 1
  $ init one
  root 1
  $ tufcheck show one
  root 1 0000-01-01T00:00:00Z
  $ tufcheck show one --before 0000-01-01T00:00:01Z
  root 1 0000-01-01T00:00:00Z
  [1]
  $ make
  > @keys
  > expires 0000-02-29T01:02:03Z
  > write root 1 1
  $ init one
  root 1
  $ tufcheck show one
  root 1 0000-02-29T01:02:03Z
  $ make
  > @keys
  > expires 1969-12-31T23:59:59Z
  > write root 1 1
  $ init one
  root 1
  $ tufcheck show one
  root 1 1969-12-31T23:59:59Z
  $ make
  > @keys
  > expires 1900-12-31T10:20:30Z
  > write root 1 1
  $ init one
  root 1
  $ tufcheck show one
  root 1 1900-12-31T10:20:30Z
  $ make
  > @keys
  > expires 2000-02-29T00:00:59Z
  > write root 1 1
  $ init one
  root 1
  $ tufcheck show one
  root 1 2000-02-29T00:00:59Z

A state that an update left when it stopped: no snapshot is trusted.
  $ make
  > @keys
  > @files
  > write root 1 1
  $ remove metadata/snapshot.json
  $ init one
  root 1
  $ verify one two
  root 1
  end snapshot Missing
  [2]
  $ tufcheck show two
  root 1 2030-01-01T00:00:00Z
  timestamp 1 2030-01-01T00:00:00Z
  $ tufcheck show two --before 2030-01-01T00:00:01Z
  root 1 2030-01-01T00:00:00Z
  timestamp 1 2030-01-01T00:00:00Z
  [1]

The moment is read before the state. What can't be read, or is no state, is a mistake.
  $ tufcheck show none --before yesterday
  ! tufcheck: now
  [3]
  $ tufcheck show two --before 2030-02-29T00:00:00Z
  ! tufcheck: now
  [3]
  $ tufcheck show two --before ""
  ! tufcheck: now
  [3]
  $ tufcheck show none
  ! tufcheck: state file
  [3]
  $ tufcheck show none --before 2030-01-01T00:00:00Z
  ! tufcheck: state file
  [3]
  $ put object
  > {}
  $ tufcheck show object
  ! tufcheck: state file
  [3]
  $ tufcheck show metadata/1.root.json
  ! tufcheck: state file
  [3]
  $ tufcheck show metadata
  ! tufcheck: state file
  [3]
  $ tufcheck show
  ! error: ...
  ...
  [3]
  $ tufcheck show one two
  ! error: ...
  ...
  [3]
  $ tufcheck show one --before
  ! error: ...
  ...
  [3]
  $ tufcheck show one --now 2030-01-01T00:00:00Z
  ! error: ...
  ...
  [3]

The bytes of one file, and none of a file that isn't trusted.
  $ put root
  > {"signatures":[],"signed":{"_type":"root","consistent_snapshot":false,"expires":"2030-01-01T00:00:00Z","keys":{},"roles":{"root":{"keyids":[],"threshold":1},"snapshot":{"keyids":[],"threshold":1},"targets":{"keyids":[],"threshold":1},"timestamp":{"keyids":[],"threshold":1}},"spec_version":"1.0.0","version":5}}
  $ state plain root=root
  $ tufcheck show plain --file root
  {"signatures":[],"signed":{"_type":"root","consistent_snapshot":false,"expires":"2030-01-01T00:00:00Z","keys":{},"roles":{"root":{"keyids":[],"threshold":1},"snapshot":{"keyids":[],"threshold":1},"targets":{"keyids":[],"threshold":1},"timestamp":{"keyids":[],"threshold":1}},"spec_version":"1.0.0","version":5}}
  (no line feed)
  $ tufcheck show plain --file timestamp
  [1]
  $ tufcheck show plain --file snapshot
  [1]
  $ tufcheck show --file targets plain
  [1]
  $ tufcheck show two --file timestamp
  {"signatures":[...
  (no line feed)
  $ tufcheck show plain --file role
  ! error: ...
  ...
  [3]
  $ tufcheck show plain --file root --before 2030-01-01T00:00:00Z
  ! error: ...
  ...
  [3]
  $ narrow 9 show plain --file root
  ! tufcheck: output
  [4]

An output that refuses.
  $ narrow 0 show two
  ! tufcheck: output
  [4]
  $ narrow 7 show two
  ! tufcheck: output
  [4]
