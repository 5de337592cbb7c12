Creator "by hand"
Version 1
graph
[
  directed 1
  node
  [
    id 0
    label "0&amp;0"
  ]
  node
  [
    id 1
    label "0&amp;1"
  ]
  node
  [
    id 2
    label "0&amp;2"
  ]
  node
  [
    id 3
    label "0&amp;3"
  ]
  node
  [
    id 4
    label "0&amp;4"
  ]
  node
  [
    id 5
    label "0&amp;5"
  ]
  node
  [
    id 6
    label "1&amp;0"
  ]
  node
  [
    id 7
    label "1&amp;1"
  ]
  node
  [
    id 8
    label "1&amp;2"
  ]
  node
  [
    id 9
    label "1&amp;3"
  ]
  node
  [
    id 10
    label "1&amp;4"
  ]
  node
  [
    id 11
    label "1&amp;5"
  ]
  node
  [
    id 12
    label "2&amp;0"
  ]
  node
  [
    id 13
    label "2&amp;1"
  ]
  node
  [
    id 14
    label "2&amp;2"
  ]
  node
  [
    id 15
    label "2&amp;3"
  ]
  node
  [
    id 16
    label "2&amp;4"
  ]
  node
  [
    id 17
    label "2&amp;5"
  ]
  node
  [
    id 18
    label "3&amp;0"
  ]
  node
  [
    id 19
    label "3&amp;1"
  ]
  node
  [
    id 20
    label "3&amp;2"
  ]
  node
  [
    id 21
    label "3&amp;3"
  ]
  node
  [
    id 22
    label "3&amp;4"
  ]
  node
  [
    id 23
    label "3&amp;5"
  ]
  edge [ source 0 target 6 label "0-6" ]
  edge [ source 0 target 1 label "0-1" ]
  edge [ source 1 target 7 ]
  edge [ source 1 target 2 ]
  edge [ source 2 target 8 ]
  edge [ source 2 target 3 ]
  edge [ source 3 target 9 ]
  edge [ source 3 target 4 ]
  edge [ source 4 target 10 ]
  edge [ source 4 target 5 ]
  edge [ source 5 target 11 label "5-11" ]
  edge [ source 6 target 12 ]
  edge [ source 6 target 7 ]
  edge [ source 7 target 13 ]
  edge [ source 7 target 8 ]
  edge [ source 8 target 14 ]
  edge [ source 8 target 9 ]
  edge [ source 9 target 15 ]
  edge [ source 9 target 10 ]
  edge [ source 10 target 16 label "10-16" ]
  edge [ source 10 target 11 label "10-11" ]
  edge [ source 11 target 17 ]
  edge [ source 12 target 18 ]
  edge [ source 12 target 13 ]
  edge [ source 13 target 19 ]
  edge [ source 13 target 14 ]
  edge [ source 14 target 20 ]
  edge [ source 14 target 15 ]
  edge [ source 15 target 21 label "15-21" ]
  edge [ source 15 target 16 label "15-16" ]
  edge [ source 16 target 22 ]
  edge [ source 16 target 17 ]
  edge [ source 17 target 23 ]
  edge [ source 18 target 19 ]
  edge [ source 19 target 20 ]
  edge [ source 20 target 21 label "20-21" ]
  edge [ source 21 target 22 ]
  edge [ source 22 target 23 ]
]
