//! The calls of the scene compiler through the methods of the bindings, with the
//! answers of the C interface.
use grelfint::raw::{CompileAnswer, NodeSet};
use grelfint::scene::{self, Compiled};
use grelfint::SceneRefusal;

/// The requests of a compiled scene are those of its bytes. A refusal has a step exactly if it is for a bad step.
fn compiled(result: Result<Compiled, SceneRefusal>, buffer: *const u8) -> CompileAnswer {
    match result {
        Ok(compiled) => {
            let (bytes, requests) = (compiled.bytes(), compiled.requests());
            let mut parts = vec![requests.len() as u8];
            let requests: Vec<&[u8]> = requests.collect();
            parts.extend(requests.iter().map(|request| request.len() as u8));
            assert_eq!([parts, requests.concat()].concat(), bytes);
            assert_eq!(bytes.as_ptr(), buffer, "not the front of the buffer");
            CompileAnswer { refusal: 0, step: 0, length: bytes.len() }
        }
        Err(refused) => {
            let refusal = refused.refusal.into();
            assert_eq!(refused.step.is_some(), (81..=84).contains(&refusal), "{refused:?}");
            CompileAnswer { refusal, step: refused.step.unwrap_or(0), length: 0 }
        }
    }
}

pub fn compile(book: &[u8], scene: usize, address: u16, hwpid: u16, out: &mut [u8]) -> CompileAnswer {
    let buffer = out.as_ptr();
    compiled(scene::compile(book, scene, address, hwpid, out), buffer)
}

pub fn compile_default(book: &[u8], scene: usize, address: u16, out: &mut [u8]) -> CompileAnswer {
    let buffer = out.as_ptr();
    compiled(scene::compile_default(book, scene, address, out), buffer)
}

pub fn compile_selected(book: &[u8], scene: usize, nodes: NodeSet, hwpid: u16, out: &mut [u8]) -> CompileAnswer {
    let buffer = out.as_ptr();
    compiled(scene::compile_selected(book, scene, &nodes, hwpid, out), buffer)
}

pub fn compile_selected_default(book: &[u8], scene: usize, nodes: NodeSet, out: &mut [u8]) -> CompileAnswer {
    let buffer = out.as_ptr();
    compiled(scene::compile_selected_default(book, scene, &nodes, out), buffer)
}
