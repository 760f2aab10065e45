module example

go 1.19

require curbsorrel.example/jwt v0.2.0

replace curbsorrel.example/jwt => ../
