      *****************************************************************
      * Takes an order from the queue of orders, and puts what the    *
      * stock lacks on the queue of complaints.                       *
      *****************************************************************
       IDENTIFICATION DIVISION.
       PROGRAM-ID. ORDERS.
       ENVIRONMENT DIVISION.
       DATA DIVISION.
       WORKING-STORAGE SECTION.
       01  WS-RESP                  PIC S9(8) COMP.
       01  WS-MORE                  PIC X VALUE 'Y'.
       01  WS-ORDER-LENGTH          PIC S9(4) COMP.
       01  WS-ORDER.
           05  WS-ARTICLE           PIC X(4).
           05  WS-NUMBER            PIC 9(3).
       PROCEDURE DIVISION.
       EMPTY-COMPLAINTS.
           EXEC CICS DELETEQ TD QUEUE('CMPL') END-EXEC.
       TAKE-ORDER.
           EXEC CICS READQ TD
                     QUEUE('ORDR')
                     INTO(WS-ORDER)
                     LENGTH(WS-ORDER-LENGTH)
                     NOSUSPEND
                     RESP(WS-RESP)
           END-EXEC.
           EVALUATE WS-RESP
               WHEN DFHRESP(NORMAL)
                   CONTINUE
               WHEN DFHRESP(QBUSY)
                   EXEC CICS SUSPEND END-EXEC
                   GO TO TAKE-ORDER
               WHEN DFHRESP(QZERO)
                   MOVE 'N' TO WS-MORE
           END-EVALUATE.
       LOOK-FOR-STOCK.
           EXEC CICS READ FILE('STOCK') RIDFLD(WS-ARTICLE OF WS-ORDER)
                INTO(STOCK-RECORD) RESP(WS-RESP) END-EXEC.
           IF WS-RESP = DFHRESP(NOTFND)
               EXEC CICS WRITEQ TD QUEUE('CMPL') FROM(WS-ORDER)
                    LENGTH(WS-ORDER-LENGTH) END-EXEC
           END-IF.
           EXEC CICS SYNCPOINT END-EXEC.
           EXEC CICS RETURN END-EXEC.
