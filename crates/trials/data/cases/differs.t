Most of what is written here is knowingly wrong, to show how a difference is printed.
  $ put old
  > abc
  $ put new
  > abd
  $ same old new
  $ tufcheck init old --out state
  root 1
  $ tufcheck init old --out state
  end root ...
  [2]
  $ tufcheck init none --out state
  ! tufcheck: input
  $ has old
  yes
  $ bogus
