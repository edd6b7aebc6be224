>>source format is free
*> Books seats of a flight, and keeps the passenger.
identification division.
program-id. booking.
data division.
working-storage section.
01 flight-record.
   05 flight-number pic x(5).
   05 flight-seats  pic 9(3).
01 passenger-record.
   05 passenger-key  pic x(8).
   05 passenger-name pic x(20).
01 response pic s9(8) comp-5.
01 note pic x(40) value "exec cics syncpoint end-exec".
procedure division.
book-seats.
    *> the flight, held until the commit
    exec cics read file('FLIGHT') into(flight-record) ridfld(flight-number of flight-record) update end-exec
    if flight-seats = 0 go to full end-if
    subtract 1 from flight-seats
    exec cics rewrite file('FLIGHT') from(flight-record) *> one seat less
    end-exec
    exec cics
        write file('PASSENGR')
              ridfld(passenger-key) *> the key of the record
              from(passenger-record)
              length(function length(passenger-record)) resp(response)
    end-exec
    exec cics syncpoint end-exec exec cics return end-exec
    .
full.
    exec cics abend abcode('FULL') cancel end-exec.
