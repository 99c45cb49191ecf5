// Release 0.1.0 of escrow. A program names this folder in its own go.mod:
//
//	require escrow.local/client v0.0.0
//	replace escrow.local/client => ../escrow/clients/go
module escrow.local/client

go 1.19
