module kothaysu.example/check

go 1.18
