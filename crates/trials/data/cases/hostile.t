Files that are cut off, or made to cost: each is verified by no worker and by eight.

A repository with a second root, and two roles that delegate to c, each by a key of its own, of which c has signed with one.
One file at a time is cut off at each multiple of 50 bytes. The timestamp lists how long the snapshot is, the snapshot how
long the targets files are, and nothing how long the root and the timestamp are. The files have 4,211, 2,925, 3,295, 3,464
and 3,007 bytes.
  $ make
  > @wide
  > write root 1 1
  > write root 2 1
  > key 5 5
  > key 6 5
  > delegate targets a 1 4 go paths x/*
  > delegate targets b 1 4 go paths y/*
  > delegate a c 1 5 go paths x/*
  > delegate b c 1 6 go paths y/*
  > target c x/1 31 sha256
  > target c y/1 32 sha256
  > write a 1 4
  > write b 1 4
  > write c 1 5
  > @files
  $ init old
  root 1
  $ cuts 50 metadata/2.root.json 0,8 old new x/1
  85 lengths, status 2
  root 1
  end root Malformed
  no "x/1" NotSearched
  $ cuts 50 metadata/timestamp.json 0,8 old new x/1
  59 lengths, status 2
  root 2
  end timestamp Malformed
  no "x/1" NotSearched
  $ cuts 50 metadata/snapshot.json 0,8 old new x/1
  66 lengths, status 2
  root 2
  end snapshot LengthWrong
  no "x/1" NotSearched
  $ cuts 50 metadata/targets.json 0,8 old new x/1
  70 lengths, status 2
  root 2
  end targets LengthWrong
  no "x/1" NotSearched
  $ cuts 50 metadata/c.json 0,8 old new x/1 y/1
  61 lengths, status 1
  root 2
  end ready
  role "a" 1
  role "b" 1
  no "x/1" LengthWrong "c"
  no "y/1" LengthWrong "c"
  $ by 0,8 old new x/1 y/1
  root 2
  end ready
  role "a" 1
  role "b" 1
  role "c" 1
  ok "x/1" 1 "c"
  no "y/1" Unsigned "c"
  [1]

Lists in lists, and the file counted as level 1 and what it signs as level 2: to level 127, and to level 128.
  $ copy metadata/timestamp.json good
  $ change metadata/timestamp.json 2
  > {"_type"
  > {"_":[[[[[[[[[[[[[[[[[[[[[[[[[[[[[[[[[[[[[[[[[[[[[[[[[[[[[[[[[[[[[[[[[[[[[[[[[[[[[[[[[[[[[[[[[[[[[[[[[[[[[[[[[[[[[[[[[[[[[[[[[[[[[]]]]]]]]]]]]]]]]]]]]]]]]]]]]]]]]]]]]]]]]]]]]]]]]]]]]]]]]]]]]]]]]]]]]]]]]]]]]]]]]]]]]]]]]]]]]]]]]]]]]]]]]]]]]]]]]]]]]]]]]]]]]],"_type"
  $ by 0,8 old new abc.txt
  root 2
  end ready
  ok "abc.txt" 3 "targets"
  $ copy good metadata/timestamp.json
  $ change metadata/timestamp.json 2
  > {"_type"
  > {"_":[[[[[[[[[[[[[[[[[[[[[[[[[[[[[[[[[[[[[[[[[[[[[[[[[[[[[[[[[[[[[[[[[[[[[[[[[[[[[[[[[[[[[[[[[[[[[[[[[[[[[[[[[[[[[[[[[[[[[[[[[[[[[[]]]]]]]]]]]]]]]]]]]]]]]]]]]]]]]]]]]]]]]]]]]]]]]]]]]]]]]]]]]]]]]]]]]]]]]]]]]]]]]]]]]]]]]]]]]]]]]]]]]]]]]]]]]]]]]]]]]]]]]]]]]]]],"_type"
  $ by 0,8 old new abc.txt
  root 2
  end timestamp Malformed
  no "abc.txt" NotSearched
  [2]
  $ copy good metadata/timestamp.json

Of members named twice the last one counts, and the signature has to be one of it.
  $ change metadata/timestamp.json
  > {"signatures"
  > {"signed":{},"signatures"
  $ by 0,8 old new abc.txt
  root 2
  end ready
  ok "abc.txt" 3 "targets"
  $ copy good metadata/timestamp.json
  $ change metadata/timestamp.json
  > ,"version":1}}
  > ,"version":1},"signed":{}}
  $ by 0,8 old new abc.txt
  root 2
  end timestamp Unsigned
  no "abc.txt" NotSearched
  [2]

Roles in a ring, which list nothing: the search ends where each was visited, or at its limit, which counts the top-level
role.
  $ make
  > @one
  > key 5 5
  > delegate targets a 1 5 go paths p
  > delegate a b 1 5 go paths p
  > delegate b c 1 5 go paths p
  > delegate c a 1 5 go paths p
  > write a 1 5
  > write b 1 5
  > write c 1 5
  > @top
  $ init old
  root 1
  $ by 0,8 old new p
  root 1
  end ready
  role "a" 1
  role "b" 1
  role "c" 1
  no "p" NotFound
  [1]
  $ by 0,8 old new --limit 3 p
  root 1
  end ready
  role "a" 1
  role "b" 1
  no "p" LimitReached
  [1]

A snapshot that lists 20,000 files more, in 540,000 bytes.
  $ make
  > @wide
  > write root 1 1
  > @files
  $ init old
  root 1
  $ change metadata/snapshot.json 3
  > "meta":{
  > "meta":{
  > @10000..29999 "r{}.json":{"version":1},
  $ change metadata/timestamp.json 2
  > "hashes":{...,"version"
  > "version"
  $ by 0,8 old many abc.txt
  root 1
  end ready
  ok "abc.txt" 3 "targets"

And the next snapshot, which lists as many: all of these, and all but the last.
  $ make
  > @wide
  > target targets abc.txt 616263 sha256
  > write targets 1 4
  > write snapshot 2 3
  > write timestamp 2 2
  $ change metadata/snapshot.json 3
  > "meta":{
  > "meta":{
  > @10000..29999 "r{}.json":{"version":1},
  $ change metadata/timestamp.json 2
  > "hashes":{...,"version"
  > "version"
  $ by 0,8 many new abc.txt
  root 1
  end ready
  ok "abc.txt" 3 "targets"
  $ change metadata/snapshot.json 3
  > "r29999.json"
  > "s29999.json"
  $ by 0,8 many new abc.txt
  root 1
  end snapshot Rollback
  no "abc.txt" NotSearched
  [2]

Entries under the key's id before the good one, in a targets file that nothing lists the length and digests of: 1,000, and
4,100, which are more than workers look at.
  $ make
  > @wide
  > write root 1 1
  > @files
  $ init old
  root 1
  $ change metadata/snapshot.json 3
  > "hashes":{...,"version"
  > "version"
  $ change metadata/timestamp.json 2
  > "hashes":{...,"version"
  > "version"
  $ by 0,8 old new abc.txt
  root 1
  end ready
  ok "abc.txt" 3 "targets"
  $ copy metadata/targets.json good
  $ change metadata/targets.json
  > {"signatures":[
  > {"signatures":[
  > @0..999 {"keyid":"3b6b7ff7d893c980c6d823ccb94d8d0d854789cb6da72104831251d469b73554","sig":"{x}"},
  $ by 0,8 old new abc.txt
  root 1
  end ready
  ok "abc.txt" 3 "targets"
  $ copy good metadata/targets.json
  $ change metadata/targets.json
  > {"signatures":[
  > {"signatures":[
  > @0..4099 {"keyid":"3b6b7ff7d893c980c6d823ccb94d8d0d854789cb6da72104831251d469b73554","sig":"{x}"},
  $ by 0,8 old new abc.txt
  root 1
  end ready
  ok "abc.txt" 3 "targets"
  $ change metadata/targets.json
  > ,"sig":"00000000
  > ,"sig":"10000000
  $ by 0,8 old new abc.txt
  root 1
  end targets Unsigned
  no "abc.txt" NotSearched
  [2]
