           MOVE POLICY TO POLICY-OUT.
           PERFORM VARYING N FROM 1 BY 1 UNTIL N > 500
               MOVE KIND (N) TO KIND-OUT (N)
               MOVE PREMIUM (N) TO PREMIUM-OUT (N)
               MOVE AGE (N) TO AGE-OUT (N)
               MOVE STATE (N) TO STATE-OUT (N)
           END-PERFORM.
