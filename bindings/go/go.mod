module tanagernail.example/btcheck

go 1.19
