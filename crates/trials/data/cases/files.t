One repository, in which one file at a time is another, or is missing.
  $ make
  > @keys
  > write root 1 1
  > @files
  $ init old
  root 1

A target of other bytes, and of another length.
  $ put targets/abc.txt
  > abd
  $ verify old new abc.txt
  root 1
  end ready
  no "abc.txt" HashWrong
  [1]
  $ has new
  $ put targets/abc.txt
  > abcd
  $ verify old new abc.txt
  root 1
  end ready
  no "abc.txt" LengthWrong
  [1]
  $ remove targets/abc.txt
  $ verify old new abc.txt
  root 1
  end ready
  no "abc.txt" Missing
  [1]
  $ put targets/abc.txt
  > abc

The timestamp, without its last byte too.
  $ copy metadata/timestamp.json good
  $ put metadata/timestamp.json
  > {}
  $ verify old new abc.txt
  root 1
  end timestamp Malformed
  no "abc.txt" NotSearched
  [2]
  $ has new
  $ copy good metadata/timestamp.json
  $ change metadata/timestamp.json
  > "spec_version":"1.0.0","version":1}}
  > "spec_version":"1.0.0","version":1}
  $ verify old new
  root 1
  end timestamp Malformed
  [2]
  $ remove metadata/timestamp.json
  $ verify old new abc.txt
  root 1
  end timestamp Missing
  no "abc.txt" NotSearched
  [2]

A file of another role in its place is malformed.
  $ copy metadata/snapshot.json metadata/timestamp.json
  $ verify old new
  root 1
  end timestamp Malformed
  [2]
  $ copy metadata/targets.json metadata/timestamp.json
  $ verify old new
  root 1
  end timestamp Malformed
  [2]
  $ copy metadata/1.root.json metadata/timestamp.json
  $ verify old new
  root 1
  end timestamp Malformed
  [2]
  $ copy good metadata/timestamp.json

The snapshot.
  $ copy metadata/snapshot.json good
  $ put metadata/snapshot.json
  > {}
  $ verify old new abc.txt
  root 1
  end snapshot LengthWrong
  no "abc.txt" NotSearched
  [2]
  $ has new
  $ remove metadata/snapshot.json
  $ verify old new abc.txt
  root 1
  end snapshot Missing
  no "abc.txt" NotSearched
  [2]
  $ copy good metadata/snapshot.json

The targets file.
  $ copy metadata/targets.json good
  $ put metadata/targets.json
  > {}
  $ verify old new abc.txt
  root 1
  end targets LengthWrong
  no "abc.txt" NotSearched
  [2]
  $ has new
  $ remove metadata/targets.json
  $ verify old new abc.txt
  root 1
  end targets Missing
  no "abc.txt" NotSearched
  [2]
  $ copy good metadata/targets.json

Files that nobody asks for, and one that is the next root.
  $ put metadata/3.root.json
  > {}
  $ put metadata/d.json
  > {
  $ verify old new abc.txt
  root 1
  end ready
  ok "abc.txt" 3 "targets"
  $ put metadata/2.root.json
  > {}
  $ verify old new abc.txt
  root 1
  end root Malformed
  no "abc.txt" NotSearched
  [2]
  $ keeps new
  root

A snapshot that doesn't list the targets file.
  $ make
  > @keys
  > write root 1 1
  > write targets 1 4
  > forget targets
  > write snapshot 1 3
  > write timestamp 1 2
  $ init old
  root 1
  $ verify old new
  root 1
  end targets NotListed
  [2]
  $ keeps new
  root snapshot timestamp
