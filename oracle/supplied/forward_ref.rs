// Stands in for the crate forward_ref: the same operator on references, by
// copying what they refer to.

#[macro_export]
macro_rules! forward_ref_unop {
    (impl $Op:ident, $op:ident for $T:ty) => {
        impl $Op for &$T {
            type Output = <$T as $Op>::Output;

            fn $op(self) -> Self::Output {
                $Op::$op(*self)
            }
        }
    };
}

#[macro_export]
macro_rules! forward_ref_binop {
    (impl $Op:ident, $op:ident for $T:ty, $U:ty) => {
        impl $Op<$U> for &$T {
            type Output = <$T as $Op<$U>>::Output;

            fn $op(self, rhs: $U) -> Self::Output {
                $Op::$op(*self, rhs)
            }
        }

        impl $Op<&$U> for $T {
            type Output = <$T as $Op<$U>>::Output;

            fn $op(self, rhs: &$U) -> Self::Output {
                $Op::$op(self, *rhs)
            }
        }

        impl $Op<&$U> for &$T {
            type Output = <$T as $Op<$U>>::Output;

            fn $op(self, rhs: &$U) -> Self::Output {
                $Op::$op(*self, *rhs)
            }
        }
    };
}

#[macro_export]
macro_rules! forward_ref_op_assign {
    (impl $Op:ident, $op:ident for $T:ty, $U:ty) => {
        impl $Op<&$U> for $T {
            fn $op(&mut self, rhs: &$U) {
                $Op::$op(self, *rhs);
            }
        }
    };
}
