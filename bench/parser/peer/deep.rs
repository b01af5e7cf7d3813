// Texts at the innermost levels: statements in nests of loops, in functions of each kind, behind definitions.

use crate::mutate;
use std::io::{Result, Write};

const STATEMENTS: [&str; 26] = [
    "x = 1 ;",
    "x = f ( ) ;",
    "x = f ( 1 ) ;",
    "x += 1 ;",
    "++ x ;",
    "q [ 0 ] = 1 ;",
    "return 0 ;",
    "int y = 1 , z = f ( 2 ) ;",
    "while ( 1 ) ;",
    "for ( x = 1 ; 1 ; x ++ ) ;",
    "for ( int i = 1 ; ; ) x ++ ;",
    "if ( 1 ) ; else ;",
    "printf ( \"%d\" , 1 ) ;",
    "scanf ( \"%d\" , & q [ 0 ] ) ;",
    "pthread_join ( t [ 0 ] , NULL ) ;",
    "pthread_create ( & t , NULL , g , ( void * ) ( intptr_t ) 0 ) ;",
    "x = ( int ) ( long ) y ;",
    "x = ( intptr_t ) y ;",
    "x = ( intptr_t ) ;",
    "x = - 1 ;",
    "x = ( 1 ) ;",
    "x = 1 + 1 ;",
    "x = q [ 0 ] ;",
    "x = ( intptr_t ) + ( long ) y ;",
    "x = f ( ( intptr_t ) , ( intptr_t + 1 ) ) ;",
    "pthread_cond_wait ( & c , & m [ ( intptr_t ) ] ) ;",
];

const HEADS: [&str; 4] = ["int main ( ) { ", "int f ( int a ) { ", "void g ( ) { ", "void * h ( void * a ) { "];

const DEFINITIONS: [&str; 6] = [
    "",
    "#define long 1\n",
    "#define intptr_t 1\n",
    "#define long 1\n#define intptr_t 2\n",
    "#define NULL 0\n",
    "#define int 1\n#define unsigned 2\n",
];

/// Each such text, and so many changes of it.
pub fn write(out: &mut impl Write, count: usize) -> Result<()> {
    let mut number = 0;
    for statement in STATEMENTS {
        for depth in 60..64 {
            for definitions in DEFINITIONS {
                let head = HEADS[number % HEADS.len()];
                let nest = "for ( ; ; ) ".repeat(depth);
                let lines = statement.replace(' ', "\n");
                let text = format!("{definitions}{head}{nest}\n{lines}\n}}\n");
                mutate::write(out, text.as_bytes(), count)?;
                number += 1;
            }
        }
    }
    Ok(())
}
