A timestamp that lists the snapshot by its version alone, with one part changed and signed anew.
  $ make
  > @wide
  > write root 1 1
  > @files
  $ init old
  root 1
  $ change metadata/timestamp.json 2
  > "hashes":{..."version":1}
  > "version":1}
  $ change metadata/snapshot.json 3
  > "hashes":{..."version":1}
  > "version":1}
  $ verify old new abc.txt
  root 1
  end ready
  ok "abc.txt" 3 "targets"
  $ copy metadata/timestamp.json good

Empty hashes.
  $ copy good metadata/timestamp.json
  $ change metadata/timestamp.json 2
  > "version":1}
  > "hashes":{},"version":1}
  $ verify old new abc.txt
  root 1
  end snapshot NoKnownHash
  no "abc.txt" NotSearched
  [2]

An unknown algorithm alone.
  $ copy good metadata/timestamp.json
  $ change metadata/timestamp.json 2
  > "version":1}
  > "hashes":{"md5":"900150983cd24fb0d6963f7d28e17f72"},"version":1}
  $ verify old new abc.txt
  root 1
  end snapshot NoKnownHash
  no "abc.txt" NotSearched
  [2]

A digest of another file.
  $ copy good metadata/timestamp.json
  $ change metadata/timestamp.json 2
  > "version":1}
  > "hashes":{"sha256":"ba7816bf8f01cfea414140de5dae2223b00361a396177a9cb410ff61f20015ad"},"version":1}
  $ verify old new abc.txt
  root 1
  end snapshot HashWrong
  no "abc.txt" NotSearched
  [2]

A digest of two digits.
  $ copy good metadata/timestamp.json
  $ change metadata/timestamp.json 2
  > "version":1}
  > "hashes":{"sha256":"ba"},"version":1}
  $ verify old new abc.txt
  root 1
  end timestamp Malformed
  no "abc.txt" NotSearched
  [2]

A listed length of 1.
  $ copy good metadata/timestamp.json
  $ change metadata/timestamp.json 2
  > "version":1}
  > "length":1,"version":1}
  $ verify old new abc.txt
  root 1
  end snapshot LengthWrong
  no "abc.txt" NotSearched
  [2]

A listed length and a digest that are both wrong.
  $ copy good metadata/timestamp.json
  $ change metadata/timestamp.json 2
  > "version":1}
  > "hashes":{"sha256":"ba7816bf8f01cfea414140de5dae2223b00361a396177a9cb410ff61f20015ad"},"length":1,"version":1}
  $ verify old new abc.txt
  root 1
  end snapshot LengthWrong
  no "abc.txt" NotSearched
  [2]

A listed length of -1.
  $ copy good metadata/timestamp.json
  $ change metadata/timestamp.json 2
  > "version":1}
  > "length":-1,"version":1}
  $ verify old new abc.txt
  root 1
  end timestamp Malformed
  no "abc.txt" NotSearched
  [2]

Another listed version.
  $ copy good metadata/timestamp.json
  $ change metadata/timestamp.json 2
  > "version":1}
  > "version":2}
  $ verify old new abc.txt
  root 1
  end snapshot VersionWrong
  no "abc.txt" NotSearched
  [2]

A listed version of 0.
  $ copy good metadata/timestamp.json
  $ change metadata/timestamp.json 2
  > "version":1}
  > "version":0}
  $ verify old new abc.txt
  root 1
  end timestamp Malformed
  no "abc.txt" NotSearched
  [2]

Another kind.
  $ copy good metadata/timestamp.json
  $ change metadata/timestamp.json 2
  > "_type":"timestamp"
  > "_type":"snapshot"
  $ verify old new abc.txt
  root 1
  end timestamp Malformed
  no "abc.txt" NotSearched
  [2]

Another version of the standard.
  $ copy good metadata/timestamp.json
  $ change metadata/timestamp.json 2
  > "1.0.0"
  > "2.0.0"
  $ verify old new abc.txt
  root 1
  end timestamp Malformed
  no "abc.txt" NotSearched
  [2]

A later version of the standard.
  $ copy good metadata/timestamp.json
  $ change metadata/timestamp.json 2
  > "1.0.0"
  > "1.1.0"
  $ verify old new abc.txt
  root 1
  end ready
  ok "abc.txt" 3 "targets"

A fraction in expires.
  $ copy good metadata/timestamp.json
  $ change metadata/timestamp.json 2
  > 00:00:00Z
  > 00:00:00.5Z
  $ verify old new abc.txt
  root 1
  end timestamp Malformed
  no "abc.txt" NotSearched
  [2]

An unknown member.
  $ copy good metadata/timestamp.json
  $ change metadata/timestamp.json 2
  > "_type"
  > "_more":null,"_type"
  $ verify old new abc.txt
  root 1
  end ready
  ok "abc.txt" 3 "targets"

The moments at which it may expire: later than the run, and spelled so that they are moments.
  $ copy good metadata/timestamp.json
  $ change metadata/timestamp.json 2
  > 2030-01-01T00:00:00Z
  > 2026-01-01T00:00:01Z
  $ verify old new
  root 1
  end ready
  $ copy good metadata/timestamp.json
  $ change metadata/timestamp.json 2
  > 2030-01-01T00:00:00Z
  > 2026-01-01T00:00:00Z
  $ verify old new
  root 1
  end timestamp Expired
  [2]
  $ copy good metadata/timestamp.json
  $ change metadata/timestamp.json 2
  > 2030-01-01T00:00:00Z
  > 2025-12-31T23:59:59Z
  $ verify old new
  root 1
  end timestamp Expired
  [2]
  $ copy good metadata/timestamp.json
  $ change metadata/timestamp.json 2
  > 2030-01-01T00:00:00Z
  > 9999-12-31T23:59:59Z
  $ verify old new
  root 1
  end ready
  $ copy good metadata/timestamp.json
  $ change metadata/timestamp.json 2
  > 2030-01-01T00:00:00Z
  > 2026-02-29T00:00:00Z
  $ verify old new
  root 1
  end timestamp Malformed
  [2]
  $ copy good metadata/timestamp.json
  $ change metadata/timestamp.json 2
  > 2030-01-01T00:00:00Z
  > 2016-12-31T23:59:60Z
  $ verify old new
  root 1
  end timestamp Malformed
  [2]
  $ copy good metadata/timestamp.json
  $ change metadata/timestamp.json 2
  > 2030-01-01T00:00:00Z
  > 2030-01-01T00:00:00.5Z
  $ verify old new
  root 1
  end timestamp Malformed
  [2]
  $ copy good metadata/timestamp.json
  $ change metadata/timestamp.json 2
  > 2030-01-01T00:00:00Z
  > 2030-01-01T00:00:00+00:00
  $ verify old new
  root 1
  end timestamp Malformed
  [2]

A snapshot of another type, of which the timestamp lists no digest.
  $ copy good metadata/timestamp.json
  $ copy metadata/snapshot.json listed
  $ change metadata/snapshot.json 3
  > "_type":"snapshot"
  > "_type":"targets"
  $ verify old new abc.txt
  root 1
  end snapshot Malformed
  no "abc.txt" NotSearched
  [2]

A snapshot that lists an unknown algorithm alone.
  $ copy listed metadata/snapshot.json
  $ change metadata/snapshot.json 3
  > "version":1}
  > "hashes":{"md5":"900150983cd24fb0d6963f7d28e17f72"},"version":1}
  $ verify old new abc.txt
  root 1
  end targets NoKnownHash
  no "abc.txt" NotSearched
  [2]
