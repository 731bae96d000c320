State files that are refused, and no new one is written.
  $ make
  > @keys
  > write root 1 1
  > @files
  $ init good
  root 1

A line feed behind it.
  $ copy good old
  $ change old
  > }
  > }
  >
  $ verify old new abc.txt
  ! tufcheck: state file
  [3]
An odd number of digits.
  $ copy good old
  $ change old
  > {"root":"
  > {"root":"0
  $ verify old new abc.txt
  ! tufcheck: state file
  [3]
A digit in capitals.
  $ copy good old
  $ change old
  > {"root":"7b
  > {"root":"7B
  $ verify old new abc.txt
  ! tufcheck: state file
  [3]
Another member.
  $ copy good old
  $ change old
  > {
  > {"other":1,
  $ verify old new abc.txt
  ! tufcheck: state file
  [3]
A blank.
  $ copy good old
  $ change old
  > {"root"
  > { "root"
  $ verify old new abc.txt
  ! tufcheck: state file
  [3]
Nothing at all, no member, no root, a folder, and no file.
  $ put old
  $ verify old new abc.txt
  ! tufcheck: state file
  [3]
  $ put old
  > {}
  $ verify old new abc.txt
  ! tufcheck: state file
  [3]
  $ state old timestamp=metadata/timestamp.json
  $ verify old new abc.txt
  ! tufcheck: state file
  [3]
  $ verify metadata new abc.txt
  ! tufcheck: state file
  [3]
  $ verify none new abc.txt
  ! tufcheck: state file
  [3]

A part that isn't a file of its kind.
  $ state old root=metadata/timestamp.json
  $ verify old new abc.txt
  ! tufcheck: state file
  [3]
  $ state old root=metadata/1.root.json snapshot=metadata/timestamp.json
  $ verify old new abc.txt
  ! tufcheck: state file
  [3]

Members in another order. In the right order they are the state that a cycle leaves.
  $ state old snapshot=metadata/snapshot.json targets=metadata/targets.json timestamp=metadata/timestamp.json root=metadata/1.root.json
  $ verify old new abc.txt
  ! tufcheck: state file
  [3]
  $ has new
  [1]
  $ state old root=metadata/1.root.json snapshot=metadata/snapshot.json targets=metadata/targets.json timestamp=metadata/timestamp.json
  $ verify old new abc.txt
  root 1
  end ready
  ok "abc.txt" 3 "targets"
  $ same old new
  $ remove new

A root in a state has 512,000 bytes at most.
  $ copy metadata/1.root.json root
  $ pad root 512000
  $ state old root=root
  $ verify old new abc.txt
  root 1
  end ready
  ok "abc.txt" 3 "targets"
  $ remove new
  $ pad root 512001
  $ state old root=root
  $ verify old new abc.txt
  ! tufcheck: state file
  [3]
  $ has new
  [1]

Another spelling is reported before the folders are looked at.
  $ put old
  $ remove targets
  $ verify old new abc.txt
  ! tufcheck: state file
  [3]
