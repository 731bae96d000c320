A targets file that the snapshot lists by its version alone, with one part changed and signed anew.
  $ make
  > @wide
  > write root 1 1
  > @files
  $ init old
  root 1
  $ change metadata/timestamp.json 2
  > "hashes":{..."version":1}
  > "version":1}
  $ change metadata/snapshot.json 3
  > "hashes":{..."version":1}
  > "version":1}
  $ copy metadata/targets.json good

Hashes in capitals.
  $ copy good metadata/targets.json
  $ change metadata/targets.json 4
  > "hashes":{...}
  > "hashes":{"sha256":"BA7816BF8F01CFEA414140DE5DAE2223B00361A396177A9CB410FF61F20015AD"}
  $ verify old new abc.txt
  root 1
  end ready
  ok "abc.txt" 3 "targets"

Both digests.
  $ copy good metadata/targets.json
  $ change metadata/targets.json 4
  > "hashes":{...}
  > "hashes":{"sha256":"ba7816bf8f01cfea414140de5dae2223b00361a396177a9cb410ff61f20015ad","sha512":"ddaf35a193617abacc417349ae20413112e6fa4e89a97ea20a9eeee64b55d39a2192992a274fc1a836ba3c23a3feebbd454d4423643ce80e2a9ac94fa54ca49f"}
  $ verify old new abc.txt
  root 1
  end ready
  ok "abc.txt" 3 "targets"

The longer digest alone.
  $ copy good metadata/targets.json
  $ change metadata/targets.json 4
  > "hashes":{...}
  > "hashes":{"sha512":"ddaf35a193617abacc417349ae20413112e6fa4e89a97ea20a9eeee64b55d39a2192992a274fc1a836ba3c23a3feebbd454d4423643ce80e2a9ac94fa54ca49f"}
  $ verify old new abc.txt
  root 1
  end ready
  ok "abc.txt" 3 "targets"

One right digest and a wrong one.
  $ copy good metadata/targets.json
  $ change metadata/targets.json 4
  > "hashes":{...}
  > "hashes":{"sha256":"ba7816bf8f01cfea414140de5dae2223b00361a396177a9cb410ff61f20015ad","sha512":"00000000000000000000000000000000000000000000000000000000000000000000000000000000000000000000000000000000000000000000000000000000"}
  $ verify old new abc.txt
  root 1
  end ready
  no "abc.txt" HashWrong
  [1]

An unknown algorithm alone.
  $ copy good metadata/targets.json
  $ change metadata/targets.json 4
  > "hashes":{...}
  > "hashes":{"md5":"900150983cd24fb0d6963f7d28e17f72"}
  $ verify old new abc.txt
  root 1
  end ready
  no "abc.txt" NoKnownHash
  [1]

Empty hashes.
  $ copy good metadata/targets.json
  $ change metadata/targets.json 4
  > "hashes":{...}
  > "hashes":{}
  $ verify old new abc.txt
  root 1
  end ready
  no "abc.txt" NoKnownHash
  [1]

No hashes.
  $ copy good metadata/targets.json
  $ change metadata/targets.json 4
  > "hashes":{...},
  $ verify old new abc.txt
  root 1
  end targets Malformed
  no "abc.txt" NotSearched
  [2]

A digest of 63 digits.
  $ copy good metadata/targets.json
  $ change metadata/targets.json 4
  > "hashes":{...}
  > "hashes":{"sha256":"a7816bf8f01cfea414140de5dae2223b00361a396177a9cb410ff61f20015ad"}
  $ verify old new abc.txt
  root 1
  end targets Malformed
  no "abc.txt" NotSearched
  [2]

A length of 4.
  $ copy good metadata/targets.json
  $ change metadata/targets.json 4
  > "length":3
  > "length":4
  $ verify old new abc.txt
  root 1
  end ready
  no "abc.txt" LengthWrong
  [1]

A length of 4 and a wrong digest.
  $ copy good metadata/targets.json
  $ change metadata/targets.json 4
  > "hashes":{..."length":3
  > "hashes":{"sha256":"0000000000000000000000000000000000000000000000000000000000000000"},"length":4
  $ verify old new abc.txt
  root 1
  end ready
  no "abc.txt" LengthWrong
  [1]

A length of -1.
  $ copy good metadata/targets.json
  $ change metadata/targets.json 4
  > "length":3
  > "length":-1
  $ verify old new abc.txt
  root 1
  end targets Malformed
  no "abc.txt" NotSearched
  [2]

Both of paths and prefixes.
  $ copy good metadata/targets.json
  $ change metadata/targets.json 4
  > "expires"
  > "delegations":{"keys":{},"roles":[{"keyids":[],"name":"a","path_hash_prefixes":[],"paths":[],"threshold":1}]},"expires"
  $ verify old new abc.txt
  root 1
  end targets Malformed
  no "abc.txt" NotSearched
  [2]

An empty list of paths.
  $ copy good metadata/targets.json
  $ change metadata/targets.json 4
  > "expires"
  > "delegations":{"keys":{},"roles":[{"keyids":[],"name":"a","paths":[],"threshold":1}]},"expires"
  $ verify old new abc.txt
  root 1
  end ready
  ok "abc.txt" 3 "targets"

Hash bins, hash bins of no form, both bins and roles, and neither. A path that the file itself lists is in no bin.
  $ copy good metadata/targets.json
  $ change metadata/targets.json 4
  > "expires"
  > "delegations":{"keys":{},"succinct_roles":{"bit_length":8,"keyids":[],"name_prefix":"a","threshold":1}},"expires"
  $ verify old new abc.txt abd
  root 1
  end ready
  ok "abc.txt" 3 "targets"
  no "abd" NotListed "a-a5"
  [1]
  $ copy good metadata/targets.json
  $ change metadata/targets.json 4
  > "expires"
  > "delegations":{"keys":{},"succinct_roles":{}},"expires"
  $ verify old new abc.txt
  root 1
  end targets Malformed
  no "abc.txt" NotSearched
  [2]
  $ copy good metadata/targets.json
  $ change metadata/targets.json 4
  > "expires"
  > "delegations":{"keys":{},"roles":[],"succinct_roles":{"bit_length":8,"keyids":[],"name_prefix":"a","threshold":1}},"expires"
  $ verify old new abc.txt
  root 1
  end targets Malformed
  no "abc.txt" NotSearched
  [2]
  $ copy good metadata/targets.json
  $ change metadata/targets.json 4
  > "expires"
  > "delegations":{"keys":{}},"expires"
  $ verify old new abc.txt
  root 1
  end targets Malformed
  no "abc.txt" NotSearched
  [2]

Another version than the snapshot lists.
  $ copy good metadata/targets.json
  $ change metadata/snapshot.json 3
  > "version":1}
  > "version":2}
  $ verify old new
  root 1
  end targets VersionWrong
  [2]
