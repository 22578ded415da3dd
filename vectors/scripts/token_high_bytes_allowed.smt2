; é
(set-info :a "é")(set-info :b |é|)
