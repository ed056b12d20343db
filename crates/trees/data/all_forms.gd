@tool
class_name A
extends "b.gd".C
@export var a: int = 1
@onready var b := $B/C
const D = [1, {"k": 2}, {l = 3}]
const I: A.B := true
enum E {F, G = 2}
enum {J,}
signal s(x, y: int,)
signal t
pass
class H extends Node:
	func j(k, l = 1) -> void: pass
@warning_ignore("x",) static func m(n, o := 2, z: int = 3,) -> A.B:
	var p = not n in [1] and -n is int
	const u = (1 + 2 - 3) * 4 / 5 % 6 << 7 >> 8
	var v = ~1 & 2 | 3 ^ 4
	var w = n is not int or n not in [] || !(a < b) && c >= d
	var x := $"A/B" == null != false
	var aa = [1,][+0] and {2: 3,} or {b = 4,} || (n(5,))
	super(n, o,)
	w[0] = 1; w *= 2; w /= 2; w %= 2; w &= 2; w |= 2; w ^= 2; w >>= 2;
	if p > 1: return
	if p <= 1: n -= 1
	if p: return 1 if o else 2
	elif n == 0x1F:
		pass
	else:
		assert(n, 'm')
	for q: int in range(3):
		if q: break
		continue
	while a: a += 1; a <<= 2
	match n:
		1, -2: pass
		[var r, ..]: pass
		[1, 2]: pass
		[..]: pass
		{"k": var t, ..}: pass
		{1}: pass
		{..}: pass
		E.F: pass
		var y: pass
		_: pass
	self.a[0].b = super.m(preload("c"), load("d")) as int
