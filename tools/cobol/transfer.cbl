       IDENTIFICATION DIVISION.
       PROGRAM-ID. TRANSFER.
      * Moves money from a current account to a savings account. If the
      * savings account is missing, nothing is moved.
       DATA DIVISION.
       WORKING-STORAGE SECTION.
       01  WS-RESP              PIC S9(8) COMP.
       01  WS-AMOUNT            PIC 9(5) VALUE 30.
       01  WS-FROM-KEY          PIC X(4).
       01  WS-TO-KEY            PIC X(4).
       COPY CURRREC.
       COPY SAVEREC.
       PROCEDURE DIVISION.
       TAKE-FROM-CURRENT.
           EXEC CICS READ FILE("CURR") RIDFLD(WS-FROM-KEY)
                INTO(CURR-REC) UPDATE
           END-EXEC
           SUBTRACT WS-AMOUNT FROM CURR-BALANCE
           EXEC CICS REWRITE FILE("CURR") FROM(CURR-REC) END-EXEC.

       ADD-TO-SAVINGS.
           EXEC CICS READ FILE("SAVE") RIDFLD(WS-TO-KEY)
                INTO(SAVE-REC) UPDATE RESP(WS-RESP)
           END-EXEC
           IF WS-RESP NOT = DFHRESP(NORMAL)
      *        The current account is as it was before.
               EXEC CICS SYNCPOINT ROLLBACK END-EXEC
      *        REFUSED isn't recoverable: this stays, whatever follows.
               EXEC CICS WRITE FILE("REFUSED")
                    RIDFLD(WS-FROM-KEY)
                    FROM("0001 owner's savings are missing")
               END-EXEC
               EXEC CICS ABEND ABCODE("NOSA") END-EXEC
           END-IF
           ADD WS-AMOUNT TO SAVE-BALANCE
           EXEC CICS REWRITE FILE("SAVE") FROM(SAVE-REC) END-EXEC
           EXEC CICS SYNCPOINT END-EXEC
           EXEC CICS RETURN END-EXEC.
