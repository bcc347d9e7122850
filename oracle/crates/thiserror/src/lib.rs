//! Local stand-in for `thiserror::Error`: enough for `ftext.rs`, no syn, no quote.
//! Display: the `#[error("..")]` text with the variant's named fields in scope,
//! `transparent` delegates; `#[from]` gives the `From` impl.
// Nested tests of tokens read better than long chains of conditions.
#![allow(clippy::collapsible_if)]
use proc_macro::{Delimiter, TokenStream, TokenTree};

#[proc_macro_derive(Error, attributes(error, from))]
pub fn derive(input: TokenStream) -> TokenStream {
    let toks: Vec<TokenTree> = input.into_iter().collect();
    let mut name = String::new();
    let mut body = None;
    let mut i = 0;
    while i < toks.len() {
        if let TokenTree::Ident(id) = &toks[i] {
            if id.to_string() == "enum" {
                name = toks[i + 1].to_string();
            }
        }
        if let TokenTree::Group(g) = &toks[i] {
            if g.delimiter() == Delimiter::Brace {
                body = Some(g.stream());
            }
        }
        i += 1;
    }
    let body: Vec<TokenTree> = body.expect("enum body").into_iter().collect();
    let mut arms = String::new();
    let mut froms = String::new();
    let mut msg = String::new();
    let mut i = 0;
    while i < body.len() {
        match &body[i] {
            TokenTree::Punct(p) if p.as_char() == '#' => {
                if let TokenTree::Group(g) = &body[i + 1] {
                    let inner: Vec<TokenTree> = g.stream().into_iter().collect();
                    if inner[0].to_string() == "error" {
                        if let TokenTree::Group(a) = &inner[1] {
                            msg = a.stream().to_string();
                        }
                    }
                }
                i += 2;
            }
            TokenTree::Ident(v) => {
                let v = v.to_string();
                let mut pat = format!("Self::{v}");
                let mut expr = format!("write!(f, {msg})");
                if let Some(TokenTree::Group(g)) = body.get(i + 1) {
                    let inner: Vec<TokenTree> = g.stream().into_iter().collect();
                    if g.delimiter() == Delimiter::Brace {
                        let mut names = Vec::new();
                        for w in inner.windows(2) {
                            if let (TokenTree::Ident(n), TokenTree::Punct(p)) = (&w[0], &w[1]) {
                                if p.as_char() == ':' {
                                    names.push(n.to_string());
                                }
                            }
                        }
                        pat = format!("Self::{v} {{ {} }}", names.join(", "));
                    } else {
                        pat = format!("Self::{v}(inner)");
                        if msg == "transparent" {
                            expr = "core::fmt::Display::fmt(inner, f)".into();
                        }
                        // `#[from] Ty`
                        if let (Some(TokenTree::Punct(p)), Some(TokenTree::Group(a))) = (inner.first(), inner.get(1)) {
                            if p.as_char() == '#' && a.stream().to_string() == "from" {
                                let ty: TokenStream = inner[2..].iter().cloned().collect();
                                froms += &format!("impl From<{ty}> for {name} {{ fn from(e: {ty}) -> Self {{ Self::{v}(e) }} }}");
                            }
                        }
                    }
                    i += 1;
                }
                arms += &format!("{pat} => {expr},");
                i += 1;
            }
            _ => i += 1,
        }
    }
    format!(
        "impl core::fmt::Display for {name} {{ #[allow(unused_variables)] fn fmt(&self, f: &mut core::fmt::Formatter<'_>) -> core::fmt::Result {{ match self {{ {arms} }} }} }}
         impl core::error::Error for {name} {{}} {froms}"
    )
    .parse()
    .unwrap()
}
