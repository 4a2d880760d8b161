;;  . . . .
;;  . $ . *     the player is at 1-1, the stone at 2-2, its goal at 4-2
;;  . . . .
(define (problem p012-microban-sequential)
  (:domain sokoban-sequential)
  (:objects dir-down - direction dir-left - direction dir-right - direction dir-up - direction
    player-01 - player stone-01 - stone
    pos-1-1 pos-2-1 pos-3-1 pos-1-2 pos-2-2 pos-3-2 pos-4-2 - location)
  (:init
    (IS-GOAL pos-4-2)
    (IS-NONGOAL pos-1-1) (IS-NONGOAL pos-2-1) (IS-NONGOAL pos-3-1) (IS-NONGOAL pos-1-2)
    (IS-NONGOAL pos-2-2) (IS-NONGOAL pos-3-2)
    (MOVE-DIR pos-1-1 pos-2-1 dir-right) (MOVE-DIR pos-2-1 pos-1-1 dir-left)
    (MOVE-DIR pos-2-1 pos-3-1 dir-right) (MOVE-DIR pos-3-1 pos-2-1 dir-left)
    (MOVE-DIR pos-1-2 pos-2-2 dir-right) (MOVE-DIR pos-2-2 pos-1-2 dir-left)
    (MOVE-DIR pos-2-2 pos-3-2 dir-right) (MOVE-DIR pos-3-2 pos-2-2 dir-left)
    (MOVE-DIR pos-3-2 pos-4-2 dir-right) (MOVE-DIR pos-4-2 pos-3-2 dir-left)
    (MOVE-DIR pos-1-1 pos-1-2 dir-down) (MOVE-DIR pos-1-2 pos-1-1 dir-up)
    (MOVE-DIR pos-2-1 pos-2-2 dir-down) (MOVE-DIR pos-2-2 pos-2-1 dir-up)
    (MOVE-DIR pos-3-1 pos-3-2 dir-down) (MOVE-DIR pos-3-2 pos-3-1 dir-up)
    (at player-01 pos-1-1) (at stone-01 pos-2-2)
    (clear pos-2-1) (clear pos-3-1) (clear pos-1-2) (clear pos-3-2) (clear pos-4-2)
    (= (total-cost) 0))
  (:goal (at-goal stone-01))
  (:metric minimize (total-cost)))
