A cycle over one repository, and then one over another, which begins from what the first left.

A lower timestamp.
  $ make
  > @wide
  > write root 1 1
  > write targets 1 4
  > write snapshot 1 3
  > write timestamp 5 2
  $ init one
  root 1
  $ verify one two
  root 1
  end ready
  $ state right root=metadata/1.root.json snapshot=metadata/snapshot.json targets=metadata/targets.json timestamp=metadata/timestamp.json
  $ make
  > @wide
  > write targets 1 4
  > write snapshot 1 3
  > write timestamp 4 2
  $ verify two three
  root 1
  end timestamp Rollback
  [2]
  $ same three right

A lower timestamp that is expired too. It begins from the same state.
  $ make
  > @wide
  > write targets 1 4
  > write snapshot 1 3
  > expires 2025-01-01T00:00:00Z
  > write timestamp 4 2
  $ verify two three
  root 1
  end timestamp Rollback
  [2]
  $ same three right

An equal timestamp with a bad signature. It begins from the same state.
  $ make
  > @wide
  > write targets 1 4
  > write snapshot 1 3
  > write timestamp 5 3
  $ verify two three
  root 1
  end timestamp Unsigned
  [2]
  $ same three right

An equal timestamp of other bytes: the old one stays. It begins from the same state.
  $ make
  > @wide
  > write targets 1 4
  > write snapshot 1 3
  > expires 2031-01-01T00:00:00Z
  > write timestamp 5 2
  $ verify two three
  root 1
  end ready
  $ same three right

A lower listed snapshot.
  $ make
  > @keys
  > write root 1 1
  > write targets 1 4
  > write snapshot 3 3
  > write timestamp 5 2
  $ init one
  root 1
  $ verify one two
  root 1
  end ready
  $ make
  > @keys
  > write targets 1 4
  > write snapshot 2 3
  > write timestamp 6 2
  $ verify two three
  root 1
  end timestamp Rollback
  [2]
  $ keeps three
  root snapshot targets timestamp

A lower listed targets file.
  $ make
  > @keys
  > write root 1 1
  > write targets 2 4
  > write snapshot 1 3
  > write timestamp 1 2
  $ init one
  root 1
  $ verify one two
  root 1
  end ready
  $ make
  > @keys
  > write targets 1 4
  > write snapshot 2 3
  > write timestamp 2 2
  $ verify two three
  root 1
  end snapshot Rollback
  [2]
  $ keeps three
  root snapshot targets timestamp

A name that is no longer listed. The new state has the new timestamp, and the old snapshot.
  $ make
  > @wide
  > key 5 5
  > write root 1 1
  > write targets 1 4
  > delegate targets a 1 5 go paths x
  > write a 1 5
  > write snapshot 1 3
  > write timestamp 1 2
  $ init one
  root 1
  $ verify one two
  root 1
  end ready
  $ folder old
  $ copy metadata/1.root.json old/root
  $ copy metadata/snapshot.json old/snapshot
  $ copy metadata/targets.json old/targets
  $ make
  > @wide
  > write targets 1 4
  > write snapshot 2 3
  > write timestamp 2 2
  $ verify two three
  root 1
  end snapshot Rollback
  [2]
  $ state right root=old/root snapshot=old/snapshot targets=old/targets timestamp=metadata/timestamp.json
  $ same three right

A snapshot replaced after an equal timestamp.
  $ make
  > @keys
  > write root 1 1
  > write targets 1 4
  > write snapshot 1 3
  > write timestamp 1 2
  $ init one
  root 1
  $ verify one two
  root 1
  end ready
  $ make
  > @keys
  > write targets 1 4
  > write snapshot 1 3
  > write timestamp 1 2
  > expires 2031-01-01T00:00:00Z
  > write snapshot 1 3
  $ verify two three
  root 1
  end snapshot HashWrong
  [2]
  $ keeps three
  root snapshot targets timestamp

All files are newer. It begins from the same state.
  $ make
  > @keys
  > write targets 2 4
  > write snapshot 2 3
  > write timestamp 2 2
  $ verify two three
  root 1
  end ready
  $ keeps three
  root snapshot targets timestamp

Targets signed by another key. It begins from the same state.
  $ make
  > @keys
  > write targets 2 3
  > write snapshot 2 3
  > write timestamp 2 2
  $ verify two three
  root 1
  end targets Unsigned
  [2]
  $ keeps three
  root snapshot targets timestamp

A snapshot signed by another key. It begins from the same state.
  $ make
  > @keys
  > write targets 2 4
  > write snapshot 2 4
  > write timestamp 2 2
  $ verify two three
  root 1
  end snapshot Unsigned
  [2]
  $ keeps three
  root snapshot targets timestamp

Expired targets, and then an expired snapshot.
  $ make
  > @keys
  > write root 1 1
  > expires 2026-01-01T00:00:00Z
  > write targets 1 4
  > expires 2030-01-01T00:00:00Z
  > write snapshot 1 3
  > write timestamp 1 2
  $ init one
  root 1
  $ verify one two
  root 1
  end targets Expired
  [2]
  $ make
  > @keys
  > write targets 2 4
  > expires 2026-01-01T00:00:00Z
  > write snapshot 2 3
  > expires 2030-01-01T00:00:00Z
  > write timestamp 2 2
  $ verify two three
  root 1
  end snapshot Expired
  [2]
  $ keeps three
  root snapshot timestamp

An equal timestamp stays, and with it the moment at which it expires. The new one would expire later.
  $ make
  > @keys
  > write root 1 1
  > @files
  $ init one
  root 1
  $ verify one two
  root 1
  end ready
  $ make
  > @keys
  > @files
  > expires 2031-01-01T00:00:00Z
  > write timestamp 1 2
  $ verify two three abc.txt
  root 1
  end ready
  ok "abc.txt" 3 "targets"
  $ same two three
  $ make
  > @keys
  > expires 2031-01-01T00:00:00Z
  > write root 2 1
  > expires 2030-01-01T00:00:00Z
  > @files
  > expires 2031-01-01T00:00:00Z
  > write timestamp 1 2
  $ verify two three --now 2029-12-31T23:59:59Z abc.txt
  root 2
  end ready
  ok "abc.txt" 3 "targets"
  $ verify two three --now 2030-01-01T00:00:00Z abc.txt
  root 2
  end timestamp Expired
  no "abc.txt" NotSearched
  [2]

The first of a snapshot's faults is reported: the version, the rollback, the expiry.
  $ make
  > @wide
  > write root 1 1
  > write targets 2 4
  > write snapshot 1 3
  > write timestamp 1 2
  $ init one
  root 1
  $ verify one two
  root 1
  end ready
  $ make
  > @wide
  > write targets 1 4
  > expires 2025-01-01T00:00:00Z
  > write snapshot 2 3
  > expires 2030-01-01T00:00:00Z
  > write timestamp 2 2
  $ verify two three
  root 1
  end snapshot Rollback
  [2]
  $ change metadata/timestamp.json 2
  > "hashes":{..."version":2}
  > "version":3}
  $ verify two three
  root 1
  end snapshot VersionWrong
  [2]
