
: fib ( n -- n ) dup 2 < if drop 1 else dup 1- recurse swap 2 - recurse + then ;
: fibs ( n -- ) 0 do i fib . loop cr ;
16 fibs
: squares ( n -- ) 0 ?do i dup * . loop cr ;
hex 10 squares decimal 10 squares
variable hits
create flags 2000 allot
: sieve ( -- )
  flags 2000 1 fill  0 hits !
  2000 2 do
    flags i + c@ if
      1 hits +!
      i dup + begin dup 2000 < while 0 over flags + c! over drop i + repeat drop
    then
  loop hits @ . ." primes below 2000" cr ;
sieve
