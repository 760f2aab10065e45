module curbsorrel.example/jwt

go 1.19
