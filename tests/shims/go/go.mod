module run

go 1.19

require vicinity/v2 v2.0.8

replace vicinity/v2 => ../../../bindings/go
