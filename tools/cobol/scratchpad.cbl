       IDENTIFICATION DIVISION.
       PROGRAM-ID. BASKET.
       DATA DIVISION.
       WORKING-STORAGE SECTION.
       01  WS-QUEUE.
           05  WS-QUEUE-TERMINAL   PIC X(4).
           05  WS-QUEUE-NAME       PIC X(4) VALUE 'BASK'.
       01  WS-ITEM                 PIC S9(4) COMP.
       01  WS-LENGTH               PIC S9(4) COMP.
       01  WS-RESP                 PIC S9(8) COMP.
       01  WS-LINES.
           05  WS-FIRST            PIC X(12).
           05  WS-SECOND           PIC X(12).
       PROCEDURE DIVISION.
      * The basket of a terminal: a line for each article.
       FILL-BASKET.
           EXEC CICS WRITEQ TS QUEUE(WS-QUEUE) FROM(WS-FIRST)
                LENGTH(12) ITEM(WS-ITEM) MAIN END-EXEC
           MOVE 2 TO WS-ITEM
           EXEC CICS WRITEQ TS QUEUE(WS-QUEUE) FROM(WS-SECOND)
                LENGTH(12) ITEM(WS-ITEM) NOSUSPEND
           END-EXEC
           EXEC CICS WRITEQ TS QUEUE(WS-QUEUE) FROM(WS-SECOND)
                LENGTH(12) ITEM(WS-ITEM) REWRITE
           END-EXEC.
       SHOW-BASKET.
      * The queue's name may also be written as a literal.
           EXEC CICS READQ TS QUEUE('T001BASK') ITEM(WS-ITEM)
                INTO(WS-SECOND) LENGTH(WS-LENGTH)
                RESP(WS-RESP) RESP2(WS-RESP)
           END-EXEC
           EXEC CICS READQ QUEUE('T001BASK') INTO(WS-FIRST) NEXT
                NOHANDLE
           END-EXEC.
      D    DISPLAY 'ITEM ' WS-ITEM.
       EMPTY-BASKET.
           EXEC CICS DELETEQ TS QNAME(WS-QUEUE) END-EXEC
      * A message for the operator, who reads it by name.
           EXEC CICS WRITEQ QUEUE('MESSAGES') AUXILIARY
                FROM('A basket was emptied')
           END-EXEC
           EXEC CICS RETURN END-EXEC.
