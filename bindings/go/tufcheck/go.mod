module fullqimi.example/tufcheck

go 1.19
