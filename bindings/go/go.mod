module vorxindak

go 1.19
