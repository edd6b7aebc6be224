       IDENTIFICATION DIVISION.
       PROGRAM-ID. COUNTER.
       DATA DIVISION.
       WORKING-STORAGE SECTION.
       01  WS-CTL-KEY              PIC X(8) VALUE 'INVOICE'.
       01  WS-RESOURCE             PIC X(15) VALUE 'COUNTER.INVOICE'.
       01  WS-RESP                 PIC S9(8) COMP.
       01  CTL-REC.
           05  CTL-KEY             PIC X(8).
           05  CTL-NUMBER          PIC 9(6).
       PROCEDURE DIVISION.
       NEXT-NUMBER.
      * One task at a time counts: the others wait here.
           EXEC CICS ENQ RESOURCE(WS-RESOURCE)
                LENGTH(LENGTH OF WS-RESOURCE)
           END-EXEC.
           EXEC CICS READ FILE('CONTROL') RIDFLD(WS-CTL-KEY)
                INTO(CTL-REC) EQUAL RESP(WS-RESP)
           END-EXEC.
           IF WS-RESP = DFHRESP(NOTFND)
               PERFORM FIRST-NUMBER
           ELSE
               ADD 1 TO CTL-NUMBER
               EXEC CICS READ FILE('CONTROL') RIDFLD(WS-CTL-KEY)
                    KEYLENGTH(8) INTO(CTL-REC) UPDATE
               END-EXEC
               EXEC CICS REWRITE FILE('CONTROL') FROM(CTL-REC)
               END-EXEC
           END-IF.
           EXEC CICS DEQ RESOURCE(WS-RESOURCE)
                LENGTH(LENGTH OF WS-RESOURCE)
           END-EXEC.
           EXECUTE CICS RETURN END-EXEC.

       FIRST-NUMBER.
           MOVE 1 TO CTL-NUMBER.
           EXEC CICS WRITE FILE('CONTROL') RIDFLD(WS-CTL-KEY)
                FROM(CTL-REC) LENGTH(14) KEYLENGTH(8)
                RESP(WS-RESP)
           END-EXEC.
           EXEC CICS UNLOCK FILE('CONTROL') END-EXEC.
