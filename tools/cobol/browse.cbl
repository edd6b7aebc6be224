       IDENTIFICATION DIVISION.
       PROGRAM-ID. CUSTLIST.
      ****************************************************************
      * Lists the customers from a name on, upwards, and then turns  *
      * back by one.                                                 *
      ****************************************************************
       ENVIRONMENT DIVISION.
       DATA DIVISION.
       WORKING-STORAGE SECTION.
       77  WS-RESP                 PIC S9(8) COMP.
       77  WS-COUNT                PIC S9(4) COMP VALUE 0.
       77  WS-NAME                 PIC X(6).
       77  WS-NAME-LENGTH          PIC S9(4) COMP.
       77  WS-RECORD-LENGTH        PIC S9(4) COMP.
       01  WS-TABLE.
           05  WS-LINE             PIC X(20) OCCURS 10 TIMES.
       PROCEDURE DIVISION.
       LIST-CUSTOMERS SECTION.
           EXEC CICS STARTBR DATASET('CUST')
                RIDFLD(WS-NAME)
                KEYLENGTH(WS-NAME-LENGTH)
                GENERIC
                GTEQ
                RESP(WS-RESP)
           END-EXEC.
       READ-CUSTOMER.
           IF WS-RESP NOT = DFHRESP(NORMAL) GO TO READ-BACK.
           ADD 1 TO WS-COUNT.
           MOVE 20 TO WS-RECORD-LENGTH.
      * A longer record is cut (LENGERR).
           EXEC CICS READNEXT DATASET('CUST')
                INTO(WS-LINE(WS-COUNT))
                LENGTH(WS-RECORD-LENGTH)
                RIDFLD(WS-NAME)
                RESP(WS-RESP)
           END-EXEC.
           IF WS-COUNT < 10 GO TO READ-CUSTOMER.
       READ-BACK.
           EXEC CICS RESETBR DATASET('CUST')
                RIDFLD(WS-NAME)
           END-EXEC.
           EXEC CICS READPREV DATASET('CUST')
                SET(ADDRESS OF CUSTOMER-RECORD)
                RIDFLD(WS-NAME OF WS-PLACE)
                RESP(WS-RESP)
           END-EXEC.
           EXEC CICS ENDBR DATASET('CUST') END-EXEC.
           EXEC CICS RETURN END-EXEC.
