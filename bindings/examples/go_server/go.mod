module server

go 1.19

require vorxindak v0.0.0

replace vorxindak => ../../go
