module gobcheck

go 1.18
